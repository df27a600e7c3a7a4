"""Mirfodwel in Python: goals that ask other goals are answered by a proved search, and each yes and no has a graph that shows it.

`goals`, `answers`, `explain`, `check` and `subtypes` take a text and give lines, as the programs of these names. A `Session` asks
the goals of a `Table` one by one. `solve` asks goals whose candidates a function of yours gives on demand.

A call of the library lets other threads of Python run, and is ended by nothing: KeyboardInterrupt is raised once it has returned.
Depths bound calls; `solve` can be ended between its rounds, and `run_with_timeout` asks a text in a child process, which is ended.
"""

from .errors import BadInput, Closed, Error, Fault, NoLibrary, OutOfMemory, TimedOut, Unknown
from .graphs import Edge, Graph, Node
from .rounds import Solution, solve
from .sessions import Answer, Cause, Session
from .tables import Marked, Table
from .texts import Result, answers, check, explain, goals, run_with_timeout, subtypes

__all__ = [
    "Answer",
    "BadInput",
    "Cause",
    "Closed",
    "Edge",
    "Error",
    "Fault",
    "Graph",
    "Marked",
    "NoLibrary",
    "Node",
    "OutOfMemory",
    "Result",
    "Session",
    "Solution",
    "Table",
    "TimedOut",
    "Unknown",
    "answers",
    "check",
    "explain",
    "goals",
    "run_with_timeout",
    "solve",
    "subtypes",
]
