"""Sessions over tables."""

import gc
import os
import random
import shutil
import subprocess
import sys
import tempfile
import unittest
from concurrent.futures import ThreadPoolExecutor
from pathlib import Path
from unittest import mock
from xml.etree import ElementTree

from mirfodwel import BadInput, Closed, Fault, Marked, OutOfMemory, Session, Table, Unknown, check, explain
from mirfodwel.library import FAULT, FAULTS

from .cases import cases, random_rules

# Where memory is refused in the middle of a question, and given again.
REFUSED = """
import resource
from mirfodwel import OutOfMemory, Session, Table
table = Table()
for goal in range(20000):
    table.add(goal, [[("c", (goal + 1) % 20000)]])
session = Session(table)
before = resource.getrlimit(resource.RLIMIT_AS)
used = int(open("/proc/self/statm").read().split()[0]) * resource.getpagesize()
resource.setrlimit(resource.RLIMIT_AS, (used + 2000000, before[1]))
try:
    session.ask(0)
except OutOfMemory:
    print("out of memory")
resource.setrlimit(resource.RLIMIT_AS, before)
answer = session.ask(0)
print(answer.outcome, len(answer.graph.nodes))
"""


def table_of(rules):
    table = Table()
    for goal, candidates in enumerate(rules):
        table.add(goal, candidates)
    return table


class Answers(unittest.TestCase):
    def test_sessions_agree_with_texts(self):
        for case in cases():
            with self.subTest(case=case.name):
                if case.status == 2:
                    with self.assertRaises(BadInput) as raised:
                        Table(case.text)
                    self.assertEqual(str(raised.exception), case.errors[0])
                    continue
                table = Table(case.text)
                for _, name in case.questions():
                    table.mention(name)
                with Session(table) as session:
                    came = [session.ask(name, depth) for depth, name in case.questions()]
                    self.assertEqual([f"{each.goal} {each.outcome} {each.runs}" for each in came], case.lines)
                    for each in came:
                        self.assertEqual(each.graph is not None, each.outcome in ("yes", "no"))
                        self.assertTrue(each.graph is None or each.graph.check())

    def test_tables_are_read_as_they_are_built(self):
        built = Table()
        built.add("A", [[("i", "B"), ("u", "C")]])
        built.add("B", [Marked([("c", "A")])])
        built.add("A", [[("f", "A")], []])
        read = Table("rule A = i:B u:C\nrule ~B = c:A\nrule A = f:A\nrule A =\nask 3 D\n")
        self.assertEqual(built.goals, read.goals[:3])
        for goal in built.goals:
            self.assertEqual(built.candidates(goal), read.candidates(goal))
            self.assertEqual(list(map(type, built.candidates(goal))), list(map(type, read.candidates(goal))))
        self.assertEqual(built.candidates("A"), [(("i", "B"), ("u", "C")), (("f", "A"),), ()])
        self.assertIsInstance(built.candidates("B")[0], Marked)
        self.assertTrue("C" in built and "D" not in built and len(built) == 3)
        self.assertEqual(len(Table("")), 0)

    def test_what_is_malformed_adds_nothing(self):
        table = Table()
        for bad in ([[("x", "B")]], [[("iu", "B")]], [[("i", "B", "C")]], [[("i", "B")], [("i", [])]], [[3]]):
            with self.assertRaises((TypeError, ValueError)):
                table.add("A", bad)
        self.assertEqual((table.goals, list(table.rows()[2])), ([], []))

    def test_any_hashable_is_a_goal(self):
        goals = [("List", "Send"), 7, frozenset("ab"), None, "a\nb c"]
        table = Table()
        for goal, asked in zip(goals, goals[1:] + goals[:1]):
            table.add(goal, [[("c", asked)]])
        with Session(table) as session:
            answer = session.ask(("List", "Send"))
            self.assertEqual([node.goal for node in answer.graph.nodes], goals)
            self.assertIn("~'Send'", answer.graph.explain())

    def test_limits_and_wanted(self):
        table = Table(is_open=True)
        table.add(0, [[("i", 1), ("i", 2)]])
        table.add(1, [[("i", 3)]])
        with Session(table) as session:
            answer = session.ask(0)
            self.assertEqual((answer.outcome, answer.graph, session.wanted()), ("maybe", None, [2, 3]))
            self.assertEqual(table.candidates(3), None)
        with Session(table_of([[[("i", 1)]], [[("i", 2)]], [[]]])) as session:
            answer = session.ask(0, 1)
            self.assertEqual((answer.outcome, answer.limits_met, answer.runs), ("maybe", True, 2))
            self.assertEqual(session.ask(0, 0).outcome, "maybe")
            answer = session.ask(0, 10**30)
            self.assertEqual((answer.outcome, answer.limits_met, answer.runs), ("yes", False, 3))
            self.assertEqual(session.ask(0, 10**30).runs, 0)

    def test_causes(self):
        with Session(Table("rule A = i:B\nrule B = u:A\nrule C =\nrule D = f:D\nrule F = i:E")) as session:
            for goal, outcome in (("C", "yes"), ("E", "no")):
                cause = session.cause(goal)
                self.assertEqual((cause.outcome, cause.kind, cause.question, str(cause)), (outcome, "none", None, f"{goal} is {outcome}"))
            cause = session.ask("A").cause()
            self.assertEqual((cause.kind, cause.question, cause.runs), ("unknown cycle", ("B", "u", "A"), 2))
            self.assertEqual(str(cause), "A is maybe: cut off at u:A of B: a cycle of unknown kind")
            self.assertEqual(str(session.cause("D")), "D is maybe: cut off at f:D of D: a cycle of forced ambiguity")
            cause = session.cause("A", depth=0)
            self.assertEqual((cause.limits_met, str(cause)), (True, "A is maybe: cut off at i:B of A, which had no depth left"))
            with self.assertRaises(Unknown):
                session.cause("Z")
        with self.assertRaises(Closed):
            session.cause("A")
        table = Table(is_open=True)
        table.add(0, [[("i", 1)]])
        with Session(table) as session:
            cause = session.cause(0)
            self.assertEqual((cause.kind, cause.question), ("not known", (1, "f", 1)))
            self.assertEqual(str(cause), "0 is maybe: the candidates of 1 are not known")


class Graphs(unittest.TestCase):
    def setUp(self):
        self.session = Session(Table("rule A = i:B c:C\nrule B =\nrule C = c:A\nrule D = i:D"))
        self.graph = self.session.ask("A").graph

    def test_nodes_and_edges(self):
        self.assertEqual([(node.goal, node.outcome) for node in self.graph.nodes], [("A", "yes"), ("B", "yes"), ("C", "yes")])
        self.assertEqual(self.graph.edges, [(0, "i", 1), (0, "c", 2), (2, "c", 0)])
        self.assertEqual(self.graph.nodes[0].replies, ("begin", "noted", "yes", "yes", "noted"))

    def test_check(self):
        words = self.graph.words
        self.assertTrue(self.session.check("A", "yes", words))
        self.assertFalse(self.session.check("A", "no", words) or self.session.check("B", "yes", words))
        self.assertFalse(self.session.check("A", "yes", words[:-1]) or self.session.check("A", "yes", []))
        self.assertTrue(self.session.ask("D").graph.check())
        chance = random.Random(1)
        for _ in range(300):
            changed = list(words)
            changed[chance.randrange(len(words))] = chance.choice((0, 1, 2, 9, 2**32, 2**64 - 1))
            self.assertIn(self.session.check("A", "yes", changed), (True, False))
        with self.assertRaises(ValueError):
            self.session.check("A", "maybe", words)

    def test_forms(self):
        text = "rule A = i:B c:C\nrule B =\nrule C = c:A\nrule D = i:D\nask 4 A\n"
        self.assertEqual(self.graph.explain(), explain(text).text)
        self.assertIn("digraph", self.graph.explain("dot"))
        self.assertEqual(check(self.graph.explain("json")).lines, ["0 yes accepted"])
        table = Table()
        table.add('say "\\"', [[]])
        with Session(table) as session:
            self.assertIn(r'label="say~\"\\\""', session.explain('say "\\"', "dot"))
        self.assertIn("0 -> 2 [label=c style=dashed]", self.graph.to_dot())

    def test_networkx(self):
        try:
            import networkx
        except ImportError:
            self.skipTest("networkx is not installed")
        graph = self.graph.to_networkx()
        self.assertEqual(graph.nodes[1], {"goal": "B", "outcome": "yes"})
        self.assertEqual(sorted(graph.edges(data="kind")), [(0, 1, "i"), (0, 2, "c"), (2, 0, "c")])
        self.assertEqual([sorted(each) for each in networkx.simple_cycles(graph)], [[0, 2]])

    def test_picture(self):
        with tempfile.TemporaryDirectory() as folder:
            with mock.patch.dict(os.environ, PATH=folder):
                self.assertIsNone(self.graph._repr_svg_())
                program = Path(folder, "dot")
                program.write_text("#!/bin/sh\necho \"<svg>$*\"\n")
                program.chmod(0o755)
                self.assertEqual(self.graph._repr_svg_(), "<svg>-Tsvg\n")

    @unittest.skipUnless(shutil.which("dot"), "Graphviz is not installed")
    def test_picture_by_graphviz(self):
        def drawn(graph, kind):
            svg = "{http://www.w3.org/2000/svg}"
            shapes = ElementTree.fromstring(graph._repr_svg_().encode()).findall(f".//{svg}g[@class='{kind}']")
            return sorted((it.findtext(f"{svg}title"), " ".join(text.text for text in it.findall(f"{svg}text"))) for it in shapes)

        self.assertEqual(drawn(self.graph, "node"), [("0", "A"), ("1", "B"), ("2", "C")])
        self.assertEqual(drawn(self.graph, "edge"), [("0->1", "i"), ("0->2", "c"), ("2->0", "c")])
        for name, shown in (('"\\N" <b> & \xfc', None), ("&lt;", None), ("\x1b\0\udcff", "\ufffd" * 3)):
            table = Table()
            table.add(name, [])
            with Session(table) as session:
                self.assertEqual(drawn(session.ask(name).graph, "node"), [("0", shown or name)])


class Changing(unittest.TestCase):
    TEXT = "rule A = i:B\nrule B =\nrule C = i:D c:C\nrule D =\nrule E = i:E"

    def test_what_is_not_concerned_stays(self):
        table = Table(self.TEXT)
        with Session(table) as session:
            a, c, late, other = session.ask("A"), session.ask("C"), session.ask("A"), session.ask("C")
            graph = a.graph
            table.replace("B", [])
            self.assertEqual(session.ask("A").outcome, "yes")  # it does not see that yet
            session.change(table)
            self.assertRaises(Unknown, lambda: late.graph)
            self.assertFalse(graph.check())
            self.assertEqual((session.ask("A").outcome, session.ask("A").graph.check()), ("no", True))
            came = session.ask("C")
            self.assertEqual((came.runs, came.graph.words, c.graph.check()), (0, other.graph.words, True))
            table.add("B", [[("i", "F")]])
            table.add("F", [[]])
            session.change(table)
            self.assertEqual((session.ask("A").outcome, session.ask("C").runs, c.graph.check()), ("yes", 0, True))
            held = session.held
            session.change(table)
            self.assertEqual((session.held, session.ask("A").runs), (held, 0))

    def test_goals_are_the_same_in_any_order(self):
        first = Table(self.TEXT)
        with Session(first) as session:
            e, c = session.ask("E"), session.ask("C")
            graph = e.graph
            session.change(Table("rule F = c:E c:C\nrule E = i:E\nrule D =\nrule C = i:D c:C\nrule A ="))
            self.assertEqual([session.ask(goal).runs for goal in "CDE"], [0, 0, 0])
            self.assertTrue(c.graph.check() and graph.check())
            self.assertEqual([node.goal for node in c.graph.nodes], ["C", "D"])
            self.assertEqual([(session.ask(goal).outcome, session.ask(goal).graph.check()) for goal in "FAB"], [("no", True), ("yes", True), ("no", True)])
            self.assertEqual(session.explain("F").splitlines()[0], "F does not hold")
            session.change(first)
            self.assertEqual([session.ask(goal).runs for goal in "CDE"], [0, 0, 0])
            self.assertEqual((session.ask("A").outcome, session.ask("F").outcome), ("yes", "no"))
        self.assertEqual(first.goals, ["A", "B", "C", "D", "E"])

    def test_refused_changes_leave_it_as_it_was(self):
        bad = Table(self.TEXT)
        bad._questions[1] = 9
        with Session(Table(self.TEXT)) as session:
            answer, table = session.ask("C"), session.table
            self.assertRaises(BadInput, session.change, bad)
            self.assertEqual((session.ask("C").runs, session.table, answer.graph.check()), (0, table, True))
        self.assertRaises(Closed, session.change, table)

    def test_replaced_candidates(self):
        table = Table(self.TEXT)
        before = table.candidates("A")
        self.assertRaises(ValueError, table.replace, "A", [[("x", "B")]])
        self.assertEqual(table.candidates("A"), before)
        table.replace("A", [Marked([("c", "G")]), []])
        table.add("A", [[("u", "A")]])
        self.assertEqual(table.candidates("A"), [(("c", "G"),), (), (("u", "A"),)])
        self.assertEqual((table.candidates("G"), table.candidates("B")), ([], [()]))

    def test_random_histories(self):
        stayed = 0
        for seed in range(12):
            chance = random.Random(seed)
            rules = random_rules(seed, 30)
            with Session(table_of(rules)) as session:
                for _ in range(40):
                    if chance.random() < 0.5:
                        rules[chance.randrange(30)] = random_rules(chance.randrange(10**6), 30)[chance.randrange(30)]
                    table, order = Table(), list(range(30))
                    chance.shuffle(order)
                    for goal in order:
                        table.add(goal, rules[goal])
                    session.change(table)
                    with Session(table_of(rules)) as fresh:
                        for goal in chance.sample(range(30), 5):
                            came, anew = session.ask(goal, 6), fresh.ask(goal, 6)
                            stayed += came.runs == 0
                            self.assertNotEqual({came.outcome, anew.outcome}, {"yes", "no"})
                            if came.graph is not None:
                                self.assertTrue(came.graph.check())
                                self.assertEqual(came.graph.nodes[0].goal, goal)
        self.assertGreater(stayed, 100)


class Closing(unittest.TestCase):
    def test_closed_sessions_say_so(self):
        session = Session(Table("rule A = c:A"))
        answer, late = session.ask("A"), session.ask("A")
        graph = answer.graph
        session.close()
        session.close()
        calls = [session.wanted, graph.check, graph.explain, lambda: late.graph, lambda: session.held, lambda: session.held_bytes, lambda: session.ask("A")]
        for call in calls:
            self.assertRaises(Closed, call)
        self.assertEqual((answer.graph, graph.nodes[0].goal), (graph, "A"))

    def test_unknown_goals(self):
        table = Table("rule A = c:A")
        with Session(table) as session:
            table.add("B", [])
            for call, of in ((session.ask, "B"), (session.ask, "C"), (session.explain, "B")):
                self.assertRaises(Unknown, call, of)
            self.assertRaises(Unknown, session._graph_words, 9, 1)
            self.assertRaises(ValueError, session.ask, "A", -1)
            self.assertRaises(TypeError, session.ask, "A", "1")
            self.assertEqual(session.ask("A").outcome, "yes")

    def test_bad_rows_are_refused(self):
        table = Table("rule A = c:A")
        table._questions[1] = 5
        self.assertRaises(BadInput, Session, table)
        with Session(Table("rule A = c:A")) as session:
            answer = session.ask("A")
            self.assertRaises(BadInput, session.reopen, table)
            self.assertEqual((session.ask("A").runs, answer.graph.check()), (0, True))

    def test_opened_again(self):
        first, other = Table("rule A = c:A"), Table("rule X = i:X\nrule A = i:A")
        with Session(first) as session:
            for _ in range(3):
                answer, late = session.ask("A"), session.ask("A")
                graph = answer.graph
                self.assertEqual((answer.outcome, answer.runs, graph.check()), ("yes", 1, True))
                session.reopen(other)
                self.assertEqual((session.held, session.table, answer.graph), (0, other, graph))
                for call in (lambda: late.graph, late.cause, graph.check, graph.explain):
                    self.assertRaises(Unknown, call)
                self.assertEqual([session.ask(goal).outcome for goal in "XA"], ["no", "no"])
                session.reopen(first)
                self.assertRaises(Unknown, session.ask, "X")
        self.assertRaises(Closed, session.reopen, first)

    def test_bytes(self):
        with Session(Table("rule A = c:A")) as session:
            begun = session.held_bytes
            self.assertGreater(begun, 0)
            session.ask("A")
            small = session.held_bytes
            self.assertGreater(small, begun)
            session.reopen(Table("\n".join(f"rule g{it} = c:g{it + 1}" for it in range(2000))))
            self.assertLess(session.held_bytes, small + 1)
            session.ask("g0")
            # A node takes some hundred bytes.
            self.assertTrue(64 * session.held < session.held_bytes < 1024 * session.held)

    def test_faults(self):
        def faulty(name):
            def call(handle, *arguments):
                if name == "ask":
                    arguments[-1]._obj.fault = FAULTS.index(self.cause)
                return FAULT if name == "ask" else 0
            return call

        with Session(Table("rule A = c:A")) as session, mock.patch("mirfodwel.sessions.exported", faulty):
            for self.cause, kind in (("memory", OutOfMemory), ("conflict", Fault), ("protocol", Fault)):
                with self.assertRaises(kind) as raised:
                    session.ask("A")
                self.assertEqual(getattr(raised.exception, "cause", "memory"), self.cause)

    def test_memory_is_given_back(self):
        table = table_of([[[("c", (goal + 1) % 3000)]] for goal in range(3000)])

        def resident():
            return int(Path("/proc/self/statm").read_text().split()[1])

        def ask_all(count):
            for _ in range(count):
                Session(table).ask(0).graph.check()
            gc.collect()
            return resident()

        before = ask_all(5)
        self.assertLess(ask_all(40), before + 1000)

    def assert_prints(self, code, wanted):
        """The code, in a process of its own that leaves its session open, prints this alone."""
        environment = {**os.environ, "PYTHONPATH": str(Path(__file__).resolve().parents[1])}
        done = subprocess.run([sys.executable, "-c", code], capture_output=True, text=True, env=environment)
        self.assertEqual((done.returncode, done.stdout, done.stderr), (0, wanted, ""))

    def test_open_at_the_end(self):
        code = "from mirfodwel import *; session = Session(Table('rule A = c:A')); answer = session.ask('A'); print(answer.outcome)"
        self.assert_prints(code, "yes\n")

    def test_memory_is_refused(self):
        self.assert_prints(REFUSED, "out of memory\nyes 20000\n")


class Threads(unittest.TestCase):
    RULES = random_rules(3, 400)

    def ask_all(self, session):
        return [session.ask(goal).outcome for goal in range(400)]

    def test_sessions_of_their_own(self):
        def work(_):
            with Session(table_of(self.RULES)) as session:
                return self.ask_all(session)

        with ThreadPoolExecutor(8) as pool:
            came = list(pool.map(work, range(16)))
        self.assertTrue(all(each == came[0] for each in came))

    def test_one_session_for_all(self):
        with Session(table_of(self.RULES)) as session, ThreadPoolExecutor(8) as pool:
            came = list(pool.map(lambda _: self.ask_all(session), range(16)))
            self.assertTrue(all(each == came[0] for each in came))
            self.assertGreater(session.held, 0)
