"""Tables: goals, each with the candidates by which it may hold."""

from __future__ import annotations

import ctypes
from array import array
from typing import Any, Hashable, Iterable, Optional

from .errors import BadInput, Unknown
from .library import BAD_INPUT, DONE, KINDS, NO_ROOM, NOT_KNOWN, Sizes, error_of, exported
from .texts import Text

# A question is a kind, `i`, `u`, `c` or `f`, and the goal that is asked: inductively, by an unknown kind, coinductively, or by
# forced ambiguity. A candidate holds where all its questions do.
Question = tuple[str, Hashable]
Candidate = Iterable[Question]


class Marked(tuple[Question, ...]):
    """A candidate, as a tuple of questions, that no longer counts where one of its goal that is not marked holds."""


class Table:
    """Goals, which are any hashable values, with their candidates. A goal holds where one of its candidates does.

    `Table("rule A = i:B")` reads a text as `goals` does, whose goals are its names, without its questions; it raises BadInput.
    `Table()` is empty. Goals that are mentioned and never added have no candidates, so they do not hold; if `is_open`, it is
    not known how they may hold, and they are answered maybe. A table may change after a session was opened, which does not see it.
    """

    def __init__(self, text: Optional[Text] = None, *, is_open: bool = False) -> None:
        self._places: dict[Hashable, int] = {}
        self._listed: list[Hashable] = []
        self._is_open = is_open
        # Rows, one after the other: a goal's first candidate and their number; a candidate's first question, their number and
        # its mark; a question's kind and goal.
        self._goals, self._candidates, self._questions = array("I"), array("I"), array("I")
        if text is not None:
            self._read(text.encode() if isinstance(text, str) else bytes(text))

    def _read(self, data: bytes) -> None:
        sizes, line = Sizes(), ctypes.c_size_t()

        status, word = NO_ROOM, ctypes.c_uint32
        # At first nothing has room, and the sizes come.
        while status == NO_ROOM:
            goals, candidates = (word * (2 * sizes.goals))(), (word * (3 * sizes.candidates))()
            questions, names = (word * (2 * sizes.questions))(), (ctypes.c_char * sizes.names)()
            given = (goals, sizes.goals, candidates, sizes.candidates, questions, sizes.questions, names, sizes.names)
            status = exported("read")(data, len(data), *given, ctypes.byref(sizes), ctypes.byref(line))
        if status != DONE:
            raise BadInput(f"line {line.value}: bad line", line.value) if status == BAD_INPUT else error_of(status)
        self._goals, self._candidates, self._questions = (array("I", bytes(row)) for row in (goals, candidates, questions))
        if self._is_open:
            self._goals[1::2] = array("I", (each or NOT_KNOWN for each in self._goals[1::2]))
        self._listed = list(names.raw.decode().split("\n")[:-1])
        self._places = {goal: place for place, goal in enumerate(self._listed)}

    def __len__(self) -> int:
        """How many goals are mentioned."""
        return len(self._listed)

    def __contains__(self, goal: Hashable) -> bool:
        return goal in self._places

    @property
    def goals(self) -> list[Hashable]:
        """The goals, in the order in which they were first mentioned."""
        return list(self._listed)

    def place(self, goal: Hashable) -> int:
        """Where the goal stands among `goals`; raises Unknown."""
        try:
            return self._places[goal]
        except KeyError:
            raise Unknown(f"the table does not mention {goal!r}") from None

    def goal(self, place: int) -> Hashable:
        """The goal that stands at this place."""
        return self._listed[place]

    def mention(self, goal: Hashable) -> int:
        """Makes it a goal, if it is none, and returns its place."""
        place = self._places.setdefault(goal, len(self._listed))
        if place == len(self._listed):
            self._listed.append(goal)
            self._goals.extend((0, NOT_KNOWN if self._is_open else 0))
        return place

    def add(self, goal: Hashable, candidates: Iterable[Candidate]) -> None:
        """Gives the goal these candidates, behind those that it has: `table.add("A", [[("c", "B"), ("i", "C")], []])`.

        A candidate without questions holds. Where one is malformed, ValueError or TypeError is raised, and nothing is added.
        """
        fresh = _numbered(candidates)
        place = self.mention(goal)
        self._make_last(place)
        self._append(place, fresh)

    def replace(self, goal: Hashable, candidates: Iterable[Candidate]) -> None:
        """Gives the goal these candidates in place of those that it has; where one is malformed, it keeps them."""
        fresh = _numbered(candidates)
        place = self.mention(goal)
        self._goals[2 * place : 2 * place + 2] = array("I", (len(self._candidates) // 3, 0))
        self._append(place, fresh)

    def _append(self, place: int, fresh: list[tuple[bool, list[tuple[int, Hashable]]]]) -> None:
        """Adds candidates behind those of the goal, which stand behind all others."""
        for is_marked, questions in fresh:
            self._candidates.extend((len(self._questions) // 2, len(questions), is_marked))
            for kind, asked in questions:
                self._questions.extend((kind, self.mention(asked)))
        self._goals[2 * place + 1] += len(fresh)

    def _make_last(self, place: int) -> None:
        """Lets the goal's candidates stand behind all others."""
        first, count = self._goals[2 * place : 2 * place + 2]
        count = 0 if count == NOT_KNOWN else count
        end = len(self._candidates) // 3
        if first + count != end:
            self._candidates.extend(self._candidates[3 * first : 3 * (first + count)])
            first = end
        self._goals[2 * place : 2 * place + 2] = array("I", (first, count))

    def candidates(self, goal: Hashable) -> Optional[list[tuple[Question, ...]]]:
        """The goal's candidates, marked ones as Marked; None where they are not known."""
        first, count = self._goals[2 * self.place(goal) : 2 * self.place(goal) + 2]
        return None if count == NOT_KNOWN else [self._candidate(at) for at in range(first, first + count)]

    def _candidate(self, at: int) -> tuple[Question, ...]:
        first, count, is_marked = self._candidates[3 * at : 3 * at + 3]
        words = self._questions[2 * first : 2 * (first + count)]
        found = ((KINDS[kind], self._listed[place]) for kind, place in zip(words[::2], words[1::2]))
        return Marked(found) if is_marked else tuple(found)

    def placed_as(self, other: "Table") -> "Table":
        """A table of the same rules in which each goal of the other one stands where it does there; what this table does not mention
        is as what it never added."""
        if self is other or self._listed[: len(other)] == other._listed:
            return self
        placed = Table(is_open=self._is_open)
        for goal in (*other._listed, *self._listed):
            placed.mention(goal)
        for place, goal in enumerate(self._listed):
            at = placed._places[goal]
            placed._goals[2 * at : 2 * at + 2] = self._goals[2 * place : 2 * place + 2]
        placed._candidates, placed._questions = self._candidates[:], self._questions[:]
        placed._questions[1::2] = array("I", (placed._places[self._listed[place]] for place in self._questions[1::2]))
        return placed

    def rows(self) -> list[Any]:
        """Copies of the rows of goals, candidates and questions, as the library reads them."""
        lists = (self._goals, self._candidates, self._questions)
        return [(ctypes.c_uint32 * len(each)).from_buffer_copy(each) for each in lists]


def _numbered(candidates: Iterable[Candidate]) -> list[tuple[bool, list[tuple[int, Hashable]]]]:
    """Of each candidate whether it is marked, and its questions, with kinds as rows have them."""
    fresh = [(isinstance(each, Marked), [(KINDS.index(_kind(kind)), asked) for kind, asked in each]) for each in candidates]
    for _, questions in fresh:
        for _, asked in questions:
            hash(asked)
    return fresh


def _kind(kind: str) -> str:
    if len(kind) != 1 or kind not in KINDS:
        raise ValueError(f"a kind is one of {', '.join(KINDS)}, not {kind!r}")
    return kind
