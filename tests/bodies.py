"""Wrong bodies, each of which changes a function of a crate, and what a check of the crate says of those that it has."""
import re

from calls import without_silent

FUNCTION = re.compile(r"(\s*)(?:pub(?:\([\w ]+\))? )?(?:const )?(?:unsafe )?fn (\w+)")
# What may be the call of a function.
CALL = re.compile(r"(\w+)(?=::<|\()")
# What rt says of an answer of a proof, and of what has none.
ANSWER = re.compile(r"(?:\./)?proofs/(?:(?:[\w+]+/)*([\w+]+)/)?\w+\.antt:\d+:\d+: error: (?:`([\w+-]+)`: )?(.*)")
OPEN = re.compile(r"note: (?:\./)?src/([\w/]+)\.rt:(\d+):\d+: (?:it is not proved that .*|`search` found no proof) \(`([\w+-]+)`\)(.*)")
# An answer that names what is there no longer says nothing of the contract.
LOST = re.compile(r"has no field|is not in scope|has no `|was not admitted")
FALSE = "allow values at which this goal is false"


class WrongBody:
    """A wrong body as its file tells it: texts of the crate that stand there once, and what stands in the place of each."""

    def __init__(self, file):
        self.name = f"{file.parent.name}/{file.stem}"
        self.changes = []
        path = old = None
        for line in file.read_text().split("\n"):
            if line.startswith("file: "):
                path = line.removeprefix("file: ").strip()
            elif line.startswith("old: "):
                old = line.removeprefix("old: ")
            elif line.startswith("new:"):
                self.changes.append((path, old, line.removeprefix("new:").removeprefix(" ")))

    def functions(self, texts):
        """The names of the functions that it changes, or none where it changes anything else."""
        texts, found = dict(texts), set()
        for path, old, new in self.changes:
            found.add(function_at(path, texts[path], texts[path].index(old)))
            texts[path] = texts[path].replace(old, new)
        return None if None in found else found

    def change(self, texts):
        """Makes its changes."""
        for path, old, new in self.changes:
            texts[path] = texts[path].replace(old, new)


def functions_of(lines):
    """The functions of these lines, each by its name and its text behind its first line. The lines are as rt fmt leaves them."""
    for first, line in enumerate(lines):
        found = FUNCTION.match(line)
        if found:
            yield found[2], "\n".join(lines[first + 1 : last_of(lines, first) + 1])


def last_of(lines, first):
    """The last line of the function that begins here."""
    indent = FUNCTION.match(lines[first])[1]
    return next((it for it in range(first, len(lines)) if lines[it] in (f"{indent}}}", f"{indent}{{}}")), first)


def function_at(path, text, place):
    """The name of the function in whose lines the place is, or in one of the attributes before these, or none."""
    if not path.startswith("src/"):
        return None
    lines = text.split("\n")
    number = text.count("\n", 0, place)
    while number + 1 < len(lines) and lines[number].lstrip().startswith("#["):
        number += 1
    begins = (it for it in range(number, -1, -1) if FUNCTION.match(lines[it]))
    first = next((it for it in begins if number <= last_of(lines, it)), None)
    return None if first is None else FUNCTION.match(lines[first])[2]


def called_by(name, texts):
    """The names that a function calls, or all that have its name."""
    called = set()
    for path, text in texts.items():
        if path.startswith("src/"):
            for found, text in functions_of(without_silent(text).split("\n")):
                if found == name:
                    called.update(CALL.findall(text))
    return called


def apart(bodies, functions, texts):
    """Those of the bodies, in order, that can be judged in one check: no two change functions of one name, and none one that another calls."""
    chosen, changed, called = [], set(), set()
    for body in bodies:
        calls = set().union(*(called_by(it, texts) for it in functions[body]))
        if changed.isdisjoint(functions[body] | calls) and called.isdisjoint(functions[body]):
            chosen.append(body)
            changed |= functions[body]
            called |= calls
    return chosen


class Told:
    """What a check said: which goals of which functions are not proved, and why. Functions are told by their names: of those with
    one name no more than one is changed, and the folder of a method's proof names the type's module and not its own."""

    def __init__(self, said, texts):
        self.refused = {}
        self.is_open = {}
        self.is_lost = set()
        lines = said.split("\n")
        for line, after in zip(lines, [*lines[1:], ""]):
            answer, goal = ANSWER.match(line), OPEN.match(line)
            if answer:
                # What is long goes on in the next line.
                self.note(answer[1], answer[2] or "an answer", f"{answer[3]} {after.strip() if after.startswith('  ') else ''}")
            elif goal:
                path = f"src/{goal[1]}.rt"
                place = sum(len(it) + 1 for it in texts[path].split("\n")[: int(goal[2]) - 1])
                found = function_at(path, texts[path], place)
                (self.refused if FALSE in goal[4] else self.is_open).setdefault(found, []).append(goal[3])

    def note(self, function, goal, why):
        if LOST.search(why):
            self.is_lost.add(function)
        else:
            self.refused.setdefault(function, []).append(goal)

    def of(self, functions):
        """What is said of these functions: the goals that are false or whose answers no longer answer them; those that have no
        answer; and whether answers name what is there no longer, so that a goal may have none only since its name is another one."""
        functions = functions or self.refused.keys() | self.is_open.keys()
        refused, is_open = (list(dict.fromkeys(goal for it in functions for goal in found.get(it, []))) for found in (self.refused, self.is_open))
        return refused, is_open, not self.is_lost.isdisjoint(functions)
