"""Texts in, lines out."""

import io
import json
import os
import re
import signal
import threading
import unittest
from unittest import mock

import mirfodwel
from mirfodwel.__main__ import main

from .cases import TOP, cases, dense_text


class Vectors(unittest.TestCase):
    def test_lines_are_those_of_the_programs(self):
        count = 0
        for case in cases():
            checked = [re.sub(r"^\S+ (yes|no) \d+$", r"\g<0> checked", line) for line in case.lines]
            for function, wanted in ((mirfodwel.answers, case.lines), (mirfodwel.goals, checked)):
                with self.subTest(case=case.name, function=function.__name__):
                    if case.status == 2:
                        with self.assertRaises(mirfodwel.BadInput) as raised:
                            function(case.text)
                        self.assertEqual([str(raised.exception)], case.errors)
                        self.assertEqual(f"line {raised.exception.line}", case.errors[0].split(":")[0])
                    else:
                        came = function(case.text)
                        self.assertEqual((came.status, came.lines), (case.status, wanted))
            count += 1
        self.assertGreater(count, 2000)


class Texts(unittest.TestCase):
    def test_explain_and_check(self):
        text = (TOP / "examples/send.txt").read_text()
        self.assertIn("List_is_Send holds, by rule", mirfodwel.explain(text).text)
        self.assertTrue(mirfodwel.explain(text, form="dot").text.startswith("digraph"))
        data = mirfodwel.explain(text, form="json").text
        self.assertIn("List_is_Send yes accepted", mirfodwel.check(data).lines)
        changed = json.loads(data)
        changed["answers"][0]["verdict"] = "no"
        came = mirfodwel.check(json.dumps(changed))
        self.assertEqual((came.status, came.lines[0]), (1, "List_is_Send no refused"))
        with self.assertRaises(mirfodwel.BadInput) as raised:
            mirfodwel.check("[]")
        self.assertEqual(raised.exception.byte, int(str(raised.exception).split()[1].rstrip(":")))
        with self.assertRaises(ValueError):
            mirfodwel.explain(text, form="html")

    def test_subtypes(self):
        text = "type Int = base Int\ntype Text = base Text\nask Int < Text\nask Int < Int\n"
        lines = mirfodwel.subtypes(text).lines
        self.assertTrue(lines[0].startswith("Int < Text no"))
        self.assertEqual(lines[1:], ["Int < Int yes"])
        with self.assertRaises(mirfodwel.BadInput):
            mirfodwel.subtypes("ask Int < Text")

    def test_str_and_bytes_and_room(self):
        text = "rule A =\n" + "ask 1 A\n" * 20000
        self.assertEqual(mirfodwel.goals(text), mirfodwel.goals(text.encode()))
        self.assertEqual(mirfodwel.goals("").text, "")
        with mock.patch("mirfodwel.texts.filled_text", lambda room, call: mirfodwel.library.filled_text(0, call)):
            self.assertEqual(len(mirfodwel.goals(text).lines), 20000)


class Children(unittest.TestCase):
    def test_the_same_as_in_process(self):
        text = "rule A = c:A\nask 4 A\n"
        self.assertEqual(mirfodwel.run_with_timeout(mirfodwel.goals, text, 60), mirfodwel.goals(text))
        told = mirfodwel.run_with_timeout(mirfodwel.explain, text, 60, form="dot")
        self.assertEqual(told, mirfodwel.explain(text, form="dot"))
        with self.assertRaises(mirfodwel.BadInput) as raised:
            mirfodwel.run_with_timeout(mirfodwel.answers, "rule A =\n\nrul", 60)
        self.assertEqual(raised.exception.line, 3)
        with self.assertRaises(mirfodwel.Error):
            mirfodwel.run_with_timeout(mirfodwel.explain, text, 60, form="html")

    def test_a_long_call_is_ended(self):
        with self.assertRaises(mirfodwel.TimedOut):
            mirfodwel.run_with_timeout(mirfodwel.goals, dense_text(60), 0.5)

    def test_an_interrupt_ends_it(self):
        # Where the tests run in the background, a shell may have it ignored.
        self.addCleanup(signal.signal, signal.SIGINT, signal.signal(signal.SIGINT, signal.default_int_handler))
        timer = threading.Timer(0.5, os.kill, (os.getpid(), signal.SIGINT))
        timer.start()
        self.addCleanup(timer.cancel)
        self.assertRaises(KeyboardInterrupt, mirfodwel.run_with_timeout, mirfodwel.goals, dense_text(60), 60)

    def test_command_line(self):
        for arguments, text, wanted in ((["answers"], b"ask 1 A", 0), (["answers"], b"as", 2), (["nothing"], b"", 2)):
            given = mock.Mock(buffer=io.BytesIO(text))
            with mock.patch("sys.stdin", given), mock.patch("sys.stdout", io.StringIO()), mock.patch("sys.stderr", io.StringIO()):
                self.assertEqual(main(arguments), wanted)
