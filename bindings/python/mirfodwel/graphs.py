"""Graphs that show why an answer is right."""

from __future__ import annotations

import re
import shutil
import subprocess
from typing import TYPE_CHECKING, Any, Callable, Hashable, NamedTuple, Optional, Sequence

from .library import KINDS, OUTCOMES, REPLIES

if TYPE_CHECKING:
    from .sessions import Session

_SHAPES = dict(zip(OUTCOMES, ("box", "octagon", "diamond", "hexagon")))
_STYLES = dict(zip(KINDS, ("solid", "dotted", "dashed", "bold")))
# No picture can have these, since it is XML.
_NOT_DRAWN = re.compile("[^\t\n -\ud7ff\ue000-\ufffd\U00010000-\U0010ffff]")


class Edge(NamedTuple):
    """A question on which a result rests: the places of the nodes that asked and that answers, and the step's kind."""

    source: int
    kind: str
    target: int


class Node(NamedTuple):
    """One run of a goal: its outcome, what it was told meanwhile, and the edges that lead away."""

    goal: Hashable
    outcome: str
    replies: tuple[str, ...]
    edges: tuple[Edge, ...]


def _nodes(words: Sequence[int], goal_at: Callable[[int], Hashable]) -> list[Node]:
    nodes: list[Node] = []
    at = 0
    while at < len(words):
        goal, outcome, count = words[at : at + 3]
        replies = words[at + 3 : at + 3 + count]
        at += 3 + count
        pairs = words[at + 1 : at + 1 + 2 * words[at]]
        at += 1 + len(pairs)
        edges = tuple(Edge(len(nodes), KINDS[kind], target) for kind, target in zip(pairs[::2], pairs[1::2]))
        nodes.append(Node(goal_at(goal), OUTCOMES[outcome], tuple(REPLIES[each] for each in replies), edges))
    return nodes


def _quoted(text: str) -> str:
    drawn = _NOT_DRAWN.sub("\ufffd", text).replace("&", "&amp;").replace("\\", "\\\\")
    return '"' + drawn.replace('"', '\\"').replace("\n", "\\n") + '"'


class Graph:
    """The graph of an answer: `nodes`, the root first. It stays when its session is closed, but `check` and `explain` ask it, and
    raise Unknown where that was opened again."""

    def __init__(
        self,
        session: "Session",
        turn: int,
        goal: Hashable,
        outcome: str,
        depth: int,
        words: Sequence[int],
        goal_at: Callable[[int], Hashable],
    ) -> None:
        self._session, self._turn = session, turn
        self.goal, self.outcome, self.depth = goal, outcome, depth
        self.words = list(words)
        self.nodes = _nodes(self.words, goal_at)

    @property
    def edges(self) -> list[Edge]:
        """The edges of all nodes."""
        return [edge for node in self.nodes for edge in node.edges]

    def check(self) -> bool:
        """Whether the checker accepts the graph for its goal and outcome."""
        return self._session._check(self._turn, self.goal, self.outcome, self.words)

    def explain(self, form: str = "text") -> str:
        """The answer in words, as `dot` or as `json`; for this the goal is asked anew."""
        return self._session._explain(self._turn, self.goal, form, self.depth)

    def to_networkx(self) -> Any:
        """A networkx.MultiDiGraph of the nodes' places, with `goal` and `outcome`, and edges with `kind`. It needs networkx."""
        import networkx

        graph = networkx.MultiDiGraph()
        graph.add_nodes_from((place, {"goal": node.goal, "outcome": node.outcome}) for place, node in enumerate(self.nodes))
        graph.add_edges_from((edge.source, edge.target, {"kind": edge.kind}) for edge in self.edges)
        return graph

    def to_dot(self) -> str:
        """The graph in Graphviz's language: boxes hold, octagons do not."""
        lines = [f"{at} [label={_quoted(str(node.goal))} shape={_SHAPES[node.outcome]}]" for at, node in enumerate(self.nodes)]
        lines += [f"{edge.source} -> {edge.target} [label={edge.kind} style={_STYLES[edge.kind]}]" for edge in self.edges]
        return "\n".join(["digraph {", *lines, "}", ""])

    def _repr_svg_(self) -> Optional[str]:
        """The picture that a notebook shows; None where Graphviz's `dot` is not there, or fails."""
        program = shutil.which("dot")
        if program is None:
            return None
        done = subprocess.run([program, "-Tsvg"], input=self.to_dot().encode(), capture_output=True)
        return done.stdout.decode() if done.returncode == 0 else None

    def __repr__(self) -> str:
        return f"<graph of {self.goal!r} {self.outcome}: {len(self.nodes)} nodes, {len(self.edges)} edges>"
