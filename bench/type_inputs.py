"""Declarations on which the program `traits` is timed: so many types, of each of which three auto traits are asked."""
import random
from collections import namedtuple

TRAITS = ("A", "B", "C")
# What gives the fields of each type for a count of types, and the limit on nested goals, if it is not that of Rust.
Input = namedtuple("Input", "make limit")
INPUTS = {}
# Deeper than any goal is nested.
FAR = 9999999


def type_input(limit=None):
    """Makes a function of a count one of the inputs."""

    def note(make):
        INPUTS[make.__name__] = Input(make, limit)
        return make

    return note


def name(number):
    return f"S{number}"


@type_input()
def ring(count):
    """One cycle through all types: the limit cuts each question off."""
    return ([name((i + 1) % count)] for i in range(count))


@type_input()
def graph(count):
    """A random graph with three fields each, of types of which most reach each other: the same."""
    draw = random.Random("a graph of types")
    return ([name(draw.randrange(count)) for _ in range(3)] for _ in range(count))


@type_input()
def nested(count):
    """A cycle, each with three types that take an argument, one inside the other, in its way."""
    return ([f"Option<Vec<Box<{name((i + 1) % count)}>>>", "[u8; 16]", "&'static str"] for i in range(count))


@type_input(FAR)
def rings(count):
    """Cycles through ten types each, which hold."""
    return ([name(i - i % 10 + (i + 1) % 10), name(i - i % 10 + (i + 3) % 10), "u8"] for i in range(count - count % 10))


@type_input(FAR)
def acyclic(count):
    """No cycles: three fields each, of types that are declared behind it."""
    draw = random.Random("types without cycles")
    for i in range(count):
        below = (i + 1 + int(draw.expovariate(1 / 50)) for _ in range(3))
        yield [name(j) if j < count else "i32" for j in below]


def lines_of(named, count):
    """The declarations and questions."""
    make, limit = INPUTS[named]
    if limit is not None:
        yield f'#![recursion_limit = "{limit}"]'
    yield from (f"auto trait {trait} {{}}" for trait in TRAITS)
    yield from ("enum Option<T> { None, Some(T) }", "struct Vec<T>(*const T);", "struct Box<T>(T);")
    fields = list(make(count))
    yield from (f"struct {name(number)}({', '.join(each)});" for number, each in enumerate(fields))
    yield from (f"{name(number)}: {' + '.join(TRAITS)}?" for number in range(len(fields)))


def write(path, named, count):
    """Writes the input to a file."""
    with open(path, "w", encoding="ascii") as file:
        file.writelines(line + "\n" for line in lines_of(named, count))
