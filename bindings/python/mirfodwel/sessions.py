"""Sessions, which answer the goals of a table one by one over one cache."""

from __future__ import annotations

import threading
from ctypes import byref, c_bool, c_size_t, c_uint32, c_uint64
from typing import Any, Callable, Hashable, Optional, Sequence

from .errors import Fault, OutOfMemory, Unknown
from .graphs import Graph
from .library import CAUSES, DONE, FAULT, FAULTS, KINDS, OUTCOMES, AnswerRow, Handle, ReasonRow, RowFault
from .library import depth_number, error_of, exported, filled, filled_text
from .tables import Table
from .texts import form_number


class Answer:
    """What a question came to: `outcome` is yes, no, maybe or overflow, `runs` how many runs of goals were started for it (none
    where the answer was stored), `limits_met` whether the depth or the number of runs was too small somewhere."""

    def __init__(self, session: "Session", turn: int, goal: Hashable, depth: int, row: AnswerRow) -> None:
        self._session, self._turn, self._node = session, turn, row.node if row.has_graph else None
        self._graph: Optional[Graph] = None
        self.goal, self.depth = goal, depth
        self.outcome, self.runs, self.limits_met = OUTCOMES[row.outcome], row.started, row.limits_met

    @property
    def graph(self) -> Optional[Graph]:
        """Why the answer is right; None of maybe and overflow. When it is first wanted, the session has to be open, and to know
        it still: it was not opened again, nor changed in what the goal can reach."""
        if self._graph is None and self._node is not None:
            words, goal_at = self._session._graph_words(self._node, self._turn)
            self._graph = Graph(self._session, self._turn, self.goal, self.outcome, self.depth, words, goal_at)
        return self._graph

    def cause(self) -> "Cause":
        """Why it is neither yes nor no: the goal is asked anew, at this answer's depth, while the session is open over its table."""
        return self._session._cause(self._turn, self.goal, self.depth)

    def __repr__(self) -> str:
        return f"<answer of {self.goal!r}: {self.outcome}, {self.runs} runs>"


class Cause:
    """What a goal came to as it was asked anew, and why that is neither yes nor no.

    `outcome`, `runs` and `limits_met` are as of an answer. `kind` is none of a yes or a no, and else says where the goal was cut off
    first: at `question`, a goal that asked, the letter of the step and the goal that was asked, if one is named.

        depth           the goal that asked had no depth left
        depth or runs   it had none, or the asked one had its most runs before
        runs            the asked goal had its most runs, or without a question the goal itself
        unknown cycle   the question closed a cycle of unknown kind
        forced cycle    the question closed a cycle of forced ambiguity
        not known       the candidates of the goal that asked are not known, so that no depth would help
        maybe before    the asked goal came to maybe before, and more was not noted
        not noted       nothing was noted

    `str` says it in words.
    """

    def __init__(self, table: Table, goal: Hashable, row: ReasonRow) -> None:
        self.goal = goal
        self.outcome, self.runs, self.limits_met = OUTCOMES[row.outcome], row.started, row.limits_met
        self.kind = CAUSES[row.kind]
        self.question: Optional[tuple[Hashable, str, Hashable]] = None
        if row.has_question:
            self.question = table.goal(row.by), KINDS[row.step], table.goal(row.asked)

    def __str__(self) -> str:
        if self.kind == "none":
            return f"{self.goal} is {self.outcome}"
        if self.question is None:
            words = "had its most runs" if self.kind == "runs" else "came to it for no reason that was noted"
            return f"{self.goal} is {self.outcome}: it {words}"
        by, letter, asked = self.question
        if self.kind == "not known":
            return f"{self.goal} is {self.outcome}: the candidates of {by} are not known"
        words = {
            "depth": ", which had no depth left",
            "depth or runs": f", which had no depth left, or {asked} had its most runs before",
            "runs": f": {asked} had its most runs",
            "unknown cycle": ": a cycle of unknown kind",
            "forced cycle": ": a cycle of forced ambiguity",
            "maybe before": f": {asked} came to maybe before",
        }
        return f"{self.goal} is {self.outcome}: cut off at {letter}:{asked} of {by}{words.get(self.kind, '')}"

    def __repr__(self) -> str:
        return f"<cause of {self.goal!r}: {self.outcome}, {self.kind}>"


class Session:
    """The goals of the table, as it is now, may be asked until the session is closed: `with Session(table) as session: ..`.

    Its memory is given back as it is closed, or as nothing leads to it any more. Threads may share it, and take turns. After
    it is closed each call raises Closed. A call is not ended by Ctrl-C, but goes on until it returns: the depth bounds it.
    """

    def __init__(self, table: Table) -> None:
        self._lock = threading.Lock()
        self._handle = Handle()
        self._close = exported("close")
        # How often it was opened: what was told of an earlier table means nothing in this one.
        self._turn = 0
        self._begin("open", table)

    def _begin(self, call: str, table: Table) -> None:
        rows = table.rows()
        goals, candidates, questions = rows
        fault = RowFault()
        sizes = (goals, len(goals) // 2, candidates, len(candidates) // 3, questions, len(questions) // 2)
        status = exported(call)(byref(self._handle), *sizes, byref(fault))
        if status != DONE:
            raise error_of(status, f"row {fault.place} of list {fault.list}: bad row")
        self.table = table
        # The library reads these until the session is closed, or goes over to others.
        self._rows = rows
        self._count = len(goals) // 2
        self._depth = max(1, self._count)
        # Last, so that who reads it first finds what belongs to it, or is refused. By a change goals keep their places.
        self._turn += call != "change"

    def reopen(self, table: Table) -> None:
        """Makes it a session over this table, as it is now, as good as a new one, with the memory that it has: many small tables
        take less time so than with a session each. Graphs of earlier answers that were not looked at yet are Unknown then."""
        with self._lock:
            self._begin("reopen", table)

    def change(self, table: Table) -> None:
        """Goes over to this table, as it is now, which may be the same one, changed, or another with any goals in any order.

        What is known of goals that this does not concern stays, with the graphs of their answers: of those whose candidates are
        what they were, as are those of all goals that they can reach. All else is forgotten, and graphs of it that were not looked
        at yet are Unknown. Goals that the table does not mention any more have no candidates; if it `is_open`, they are not
        known. Goals keep their places: where they stand elsewhere in the table, `table` is a copy in which they do not. The time
        is linear in both tables. Raises OutOfMemory and Closed; then the session is as it was.
        """
        with self._lock:
            self._begin("change", table.placed_as(self.table))

    def __enter__(self) -> "Session":
        return self

    def __exit__(self, *_: Any) -> None:
        self.close()

    def __del__(self) -> None:
        if hasattr(self, "_close"):
            self.close()

    def close(self) -> None:
        """Gives all memory back. A session that is closed already stays so; a call of another thread is waited for."""
        with self._lock:
            if self._handle.is_open:
                self._close(self._handle)

    def _call(self, turn: int, name: str, *arguments: Any) -> int:
        with self._lock:
            self._check_turn(turn)
            return exported(name)(byref(self._handle), *arguments)

    def _check_turn(self, turn: int) -> None:
        if turn != self._turn:
            raise Unknown("the session was opened again, over another table")

    def _filled(self, turn: int, name: str, kind: Any, room: int, *arguments: Any) -> Any:
        status, items = filled(kind, room, lambda *out: self._call(turn, name, *arguments, *out))
        if status != DONE:
            raise error_of(status)
        return items

    def ask(self, goal: Hashable, depth: Optional[int] = None) -> Answer:
        """Whether the goal holds, where so many goals may be nested: by itself as many as there are, which refuses no question.

        Raises Unknown, OutOfMemory, Fault and Closed; what the session knew before stays known.
        """
        turn, row = self._turn, AnswerRow()
        depth, place = self._depth if depth is None else depth_number(depth), self.table.place(goal)
        with self._lock:
            self._check_turn(turn)
            status = exported("ask")(byref(self._handle), depth, place, byref(row))
            words = self._fault_words() if status == FAULT else ""
        if status == FAULT:
            raise OutOfMemory(words or "memory is out") if FAULTS[row.fault] == "memory" else Fault(FAULTS[row.fault], words)
        if status != DONE:
            raise error_of(status)
        return Answer(self, turn, goal, depth, row)

    def cause(self, goal: Hashable, depth: Optional[int] = None) -> Cause:
        """Why the goal is neither yes nor no, if it is neither: it is asked anew for this, and nothing is stored. That takes up to a
        third more instructions than `ask` where nothing is known.

        Raises what `ask` does.
        """
        turn = self._turn
        return self._cause(turn, goal, self._depth if depth is None else depth_number(depth))

    def _cause(self, turn: int, goal: Hashable, depth: int) -> Cause:
        row, table = ReasonRow(), self.table
        status = self._call(turn, "cause", depth, table.place(goal), byref(row))
        if status == FAULT:
            raise OutOfMemory("memory is out") if FAULTS[row.fault] == "memory" else Fault(FAULTS[row.fault], "")
        if status != DONE:
            raise error_of(status)
        return Cause(table, goal, row)

    def _fault_words(self) -> str:
        _, words = filled_text(256, lambda *out: exported("last_fault")(byref(self._handle), *out))
        return words.strip()

    def _graph_words(self, node: int, turn: int) -> tuple[list[int], Callable[[int], Hashable]]:
        """The graph of a node in numbers, as the header of the library tells them, and what gives the goal at a place."""
        goal_at = self.table.goal
        found: list[int] = self._filled(turn, "graph", c_uint64, 256, node)
        return found, goal_at

    def check(self, goal: Hashable, outcome: str, words: Sequence[int]) -> bool:
        """Whether the checker accepts a graph, from wherever it comes, for the goal and the outcome, yes or no."""
        return self._check(self._turn, goal, outcome, words)

    def _check(self, turn: int, goal: Hashable, outcome: str, words: Sequence[int]) -> bool:
        if outcome not in OUTCOMES[:2]:
            raise ValueError(f"only a yes or a no has a graph, not {outcome!r}")
        given, is_valid = (c_uint64 * len(words))(*words), c_bool()
        place = self.table.place(goal)
        status = self._call(turn, "check_graph", place, OUTCOMES.index(outcome), given, len(given), byref(is_valid))
        if status not in (DONE, FAULT):
            raise error_of(status)
        return is_valid.value

    def wanted(self) -> list[Hashable]:
        """The goals whose candidates are not known, and that questions so far have led to."""
        turn, goal_at = self._turn, self.table.goal
        return [goal_at(place) for place in self._filled(turn, "wanted", c_uint32, 256)]

    def explain(self, goal: Hashable, form: str = "text", depth: Optional[int] = None) -> str:
        """Shows why the answer of the goal holds, in one of the forms of `mirfodwel.explain`; it is asked anew for this.

        Goals are called by what `str` says of them, with `~` for blanks; in `json` by their places in the table.
        """
        return self._explain(self._turn, goal, form, depth)

    def _explain(self, turn: int, goal: Hashable, form: str, depth: Optional[int]) -> str:
        depth = self._depth if depth is None else depth_number(depth)
        names = "".join("~".join(str(each).split()) + "\n" for each in self.table.goals[: self._count])
        if form == "dot":
            names = names.replace("\\", "\\\\").replace('"', '\\"')
        called = names.encode(errors="replace")
        given = (form_number(form), depth, self.table.place(goal), called, len(called))
        status, told = filled_text(4096, lambda *out: self._call(turn, "explain_goal", *given, *out))
        if status not in (DONE, FAULT):
            raise error_of(status, told.strip())
        return told

    @property
    def held(self) -> int:
        """How many nodes of graphs are held."""
        return self._told("held")

    @property
    def held_bytes(self) -> int:
        """How many bytes the library holds for the session, without the table; `mirfodwel_held_bytes` of the header says of which."""
        return self._told("held_bytes")

    def _told(self, name: str) -> int:
        count = c_size_t()
        status = self._call(self._turn, name, byref(count))
        if status != DONE:
            raise error_of(status)
        return count.value
