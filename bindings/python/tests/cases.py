"""The cases of the repository's vectors, and tables for tests."""

import random
from pathlib import Path
from typing import Iterator, List, NamedTuple, Tuple

TOP = Path(__file__).resolve().parents[3]


class Case(NamedTuple):
    name: str
    text: bytes
    status: int
    lines: List[str]
    errors: List[str]

    def questions(self) -> List[Tuple[int, str]]:
        """The depths and names of the text's questions."""
        asked = [line.split() for line in self.text.decode(errors="replace").split("\n")]
        return [(int(words[1]), words[2]) for words in asked if words[:1] == ["ask"]]


def cases() -> Iterator[Case]:
    """Each case, in the format that vectors/README.md tells."""
    for file in sorted((TOP / "vectors").glob("*.txt")):
        part, told = "", []
        for line in [*file.read_bytes().split(b"\n"), b""]:
            if part == "":
                if line:
                    head, given, told, part = line.split(), [], [], "input"
            elif part == "input" and line.startswith(b"expect "):
                ending = b"" if head[-1] == b"unended" or not given else b"\n"
                text, status, part = b"\n".join(given) + ending, int(line.split()[1]), "answer"
            elif part == "input":
                given.append(line)
            elif line:
                told.append(line.decode())
            else:
                lines = [each for each in told if not each.startswith("! ")]
                yield Case(head[1].decode(), text, status, lines, [each[2:] for each in told if each.startswith("! ")])
                part = ""


def random_rules(seed: int, count: int) -> List[List[List[Tuple[str, int]]]]:
    """The candidates of so many goals, which are numbers."""
    chance = random.Random(seed)

    def question(goal: int) -> Tuple[str, int]:
        return chance.choice("iiicccu"), min(count - 1, max(0, goal + chance.randint(-2, 5)))

    return [[[question(goal) for _ in range(chance.randint(0, 3))] for _ in range(chance.randint(1, 2))] for goal in range(count)]


def dense_text(count: int) -> str:
    """Goals that all reach each other by steps of all kinds: of 20 it takes hours."""
    questions = [" ".join(f"{'iuc'[(goal + asked) % 3]}:N{asked}" for asked in range(count)) for goal in range(count)]
    return "\n".join([*(f"rule N{goal} = {asked}" for goal, asked in enumerate(questions)), f"ask {count} N0", ""])
