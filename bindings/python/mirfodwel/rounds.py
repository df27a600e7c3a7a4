"""Goals whose candidates a function gives on demand, so that there may be endlessly many."""

from __future__ import annotations

from collections import deque
from typing import Callable, Hashable, Iterable, NamedTuple, Optional

from .sessions import Answer, Session
from .tables import Candidate, Table

Rules = Callable[[Hashable], Optional[Iterable[Candidate]]]


class Solution(NamedTuple):
    """What rounds came to. A yes or a no is right whatever was not known; so is any answer where no goal is `wanted`.

    `known` is of how many goals the candidates were asked for. The session of the answer is open for as long as the answer lives.
    """

    answer: Answer
    rounds: int
    known: int
    wanted: list[Hashable]


# How many goals are known in the first round at least.
_FIRST = 16


def _grow(table: Table, candidates: Rules, wanted: list[Hashable], known: set[Hashable], most: int) -> None:
    """Makes wanted goals known, and then those that they ask, breadth first, until twice as many are known as before."""
    enough = min(most, max(_FIRST, 2 * len(known), len(known) + len(wanted)))
    waiting = deque(wanted)
    while waiting and len(known) < enough:
        goal = waiting.popleft()
        if goal in known:
            continue
        known.add(goal)
        found = candidates(goal)
        if found is not None:
            table.add(goal, found)
            waiting.extend(asked for candidate in table.candidates(goal) or () for _, asked in candidate)


def solve(
    goal: Hashable,
    candidates: Rules,
    depth: int,
    most_goals: int = 1_000_000,
    progress: Optional[Callable[[Solution], None]] = None,
) -> Solution:
    """Whether the goal holds, where candidates(goal) gives the candidates of a goal, in the form that `Table.add` takes.

    It is called once for each goal at most, and for some that turn out not to be asked. Where it returns None, the goal is
    answered maybe. It works in rounds, each of which asks again with twice as many goals known, until the answer is yes or no,
    no other goal is wanted, or `most_goals` are known. What rests on known goals alone is not worked out again. After each
    round progress(solution so far) is called. What that or `candidates` raises ends it, as does Ctrl-C, which is heard of between
    calls of the library. The way to goals that are not known yet is kept for each goal, so memory may grow as the square of the
    depth: a GB or more where 16,000 goals are nested.
    """
    table = Table(is_open=True)
    table.mention(goal)
    known: set[Hashable] = set()
    wanted, rounds = [goal], 0
    session: Optional[Session] = None
    while True:
        _grow(table, candidates, wanted, known, max(1, most_goals))
        rounds += 1
        if session is None:
            session = Session(table)
        else:
            session.change(table)
        answer = session.ask(goal, depth)
        is_decided = answer.outcome in ("yes", "no")
        wanted = [] if is_decided else [each for each in session.wanted() if each not in known]
        solution = Solution(answer, rounds, len(known), wanted)
        if progress is not None:
            progress(solution)
        if not wanted or len(known) >= most_goals:
            return solution
