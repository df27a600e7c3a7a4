"""Texts in, lines out, as the programs of the same names read and write them."""

from __future__ import annotations

import os
import subprocess
import sys
from dataclasses import dataclass
from pathlib import Path
from typing import Callable, Union

from .errors import Error, TimedOut
from .library import DONE, FAULT, FORMS, error_of, exported, filled_text, path

Text = Union[str, bytes]


@dataclass(frozen=True)
class Result:
    """What a text came to.

    `status` is 0 where all is done, and 1 where a question met a fault or was unchecked, or data had a graph that is refused;
    `text` tells which.
    """

    text: str
    status: int

    @property
    def lines(self) -> list[str]:
        return self.text.splitlines()


def form_number(form: str) -> int:
    """The number of a form, which is `text`, `dot` or `json`."""
    if form not in FORMS:
        raise ValueError(f"a form is one of {', '.join(FORMS)}, not {form!r}")
    return FORMS.index(form)


def _told(name: str, text: Text, *before: int) -> Result:
    data = text.encode() if isinstance(text, str) else bytes(text)
    function = exported(name)
    status, told = filled_text(2 * len(data) + 4096, lambda *out: function(*before, data, len(data), *out))
    if status not in (DONE, FAULT):
        raise error_of(status, told.strip())
    return Result(told, status)


def goals(text: Text) -> Result:
    """Answers the questions of a table of rules, one on a line, and checks the graph of each yes and no.

    Raises BadInput where a line is malformed, and then nothing was asked, and OutOfMemory; so do the functions below.
    """
    return _told("goals", text)


def answers(text: Text) -> Result:
    """Answers the questions of a table of rules, one on a line, without a check."""
    return _told("answers", text)


def explain(text: Text, form: str = "text") -> Result:
    """Shows why each answer holds: as `text`, as `dot` in Graphviz's language, or as `json`, data that `check` reads."""
    return _told("explain", text, form_number(form))


def check(data: Text) -> Result:
    """Says of each answer of data that `explain` wrote whether the checker accepts its graph. Nothing in the data is trusted."""
    return _told("check", data)


def subtypes(text: Text) -> Result:
    """Says which types of a text that declares types are below which."""
    return _told("subtypes", text)


def run_with_timeout(function: Callable[..., Result], text: Text, seconds: float, **options: str) -> Result:
    """What function(text, **options) gives, where it is one of the five above, called in a child process.

    The child is ended after so many seconds, which raises TimedOut, and by whatever is raised meanwhile, as KeyboardInterrupt.
    So a long call can be ended this way alone: within a process it goes on until it returns.
    """
    data = text.encode() if isinstance(text, str) else bytes(text)
    folders = [str(Path(__file__).resolve().parent.parent), *filter(None, [os.environ.get("PYTHONPATH")])]
    environment = {**os.environ, "PYTHONPATH": os.pathsep.join(folders), "MIRFODWEL_LIB": str(path().parent)}
    command = [sys.executable, "-m", "mirfodwel", function.__name__, *options.values()]
    pipes = {"stdin": subprocess.PIPE, "stdout": subprocess.PIPE, "stderr": subprocess.PIPE}
    with subprocess.Popen(command, env=environment, **pipes) as child:
        try:
            told, errors = (each.decode(errors="replace") for each in child.communicate(data, seconds))
        except subprocess.TimeoutExpired:
            raise TimedOut(f"{function.__name__} took more than {seconds} seconds") from None
        finally:
            child.kill()
            child.wait()
    status, reason = child.returncode, errors.strip()
    if status < 0 or (reason and status <= FAULT):
        raise Error(reason.rpartition("\n")[2] or f"the child process was ended by signal {-status}")
    if status not in (DONE, FAULT):
        raise error_of(status, reason)
    return Result(told, status)
