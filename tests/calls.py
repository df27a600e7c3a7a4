"""Calls of a crate's functions with another number of arguments than they take, as far as a text shows them."""
import re

# Literals and comments, in which brackets and commas say nothing.
SILENT = re.compile(r'b?"(?:\\.|[^"\\])*"|b?\'(?:\\.|[^\'\\])\'|//[^\n]*')
# A function that is no method, up to its name.
FUNCTION = re.compile(r"^(?:pub(?:\(\w+\))? )?(?:const )?(?:unsafe )?fn (\w+)", re.MULTILINE)
# What may be a call of such a function: its name, perhaps after modules.
CALL = re.compile(r"(?<![\w.!:])(?:[a-z_]\w*::)*([a-z_]\w*)(?=::<|\()")


def without_silent(text):
    """The text with as many letters in the place of its literals and comments."""
    return SILENT.sub(lambda found: "x" * len(found[0]), text)


def past_angles(text, at):
    """The place behind the angle brackets that begin here, or this place where none do."""
    depth = 0
    while at < len(text):
        if text[at] == "<":
            depth += 1
        elif text[at] == ">" and text[at - 1] not in "-=":
            depth -= 1
        if depth == 0:
            return at + 1 if text[at] == ">" else at
        at += 1
    return at


def count_listed(text, at, is_of_types):
    """How many items stand in the parentheses that begin here. Among types each angle is a bracket, among values those behind `::`."""
    depth, count, is_item, is_in_bars = 0, 0, False, False
    while at < len(text):
        letter = text[at]
        if letter == "<" and (is_of_types or text[at - 2 : at] == "::"):
            at = past_angles(text, at)
            continue
        if letter == "|" and depth == 1:
            is_in_bars = not is_in_bars
        if letter in "([{":
            depth += 1
        elif letter in ")]}":
            depth -= 1
            if depth == 0:
                return count + is_item
        elif letter == "," and depth == 1 and not is_in_bars:
            count += is_item
            is_item = False
        if not letter.isspace() and letter != "," and (depth > 1 or letter != "("):
            is_item = True
        at += 1
    return None


def functions(texts):
    """How many arguments each function of these texts takes that is no method and has a name of its own among them."""
    taken = {}
    for text in map(without_silent, texts):
        for found in FUNCTION.finditer(text):
            count = count_listed(text, past_angles(text, found.end()), True)
            taken.setdefault(found[1], set()).add(count)
    return {name: counts.pop() for name, counts in taken.items() if len(counts) == 1}


def wrong_call(text, taken):
    """The name of a function that is called with another number of arguments than it takes, and that number, if there is one."""
    text = without_silent(text)
    for found in CALL.finditer(text):
        if found[1] in taken and not re.search(r"\bfn $", text[: found.start()]):
            at = found.end()
            if text.startswith("::<", at):
                at = past_angles(text, at + 2)
            count = count_listed(text, at, False) if text.startswith("(", at) else None
            if count is not None and count != taken[found[1]]:
                return found[1], count
    return None


def own_functions(text, taken):
    """Those of the functions that the text, as it stands, calls with no other number: one that it does has the name of another crate's."""
    while wrong := wrong_call(text, taken):
        taken = {name: count for name, count in taken.items() if name != wrong[0]}
    return taken
