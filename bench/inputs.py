#!/usr/bin/env python3
"""Writes the inputs on which the program is timed.

    inputs.py FOLDER [--size FACTOR] [NAME ..]

Writes FOLDER/NAME.in for each input, or for those that are named. FACTOR makes
each larger or smaller; 1 is the size at which the tables of docs/SPEED.md were
measured. The same arguments give the same files. Without names those are
written that the tables have; the far ones, which go past what the original
answers in reasonable time, are written where they are named.
"""
import argparse
import math
import os
import random
from collections import namedtuple

# What makes its lines from a count, what it is, the count at size 1, the count at a factor, and whether it is far.
Input = namedtuple("Input", "make text count at is_far")
INPUTS = {}


def times(count, factor):
    """As many times the count."""
    return max(1, round(count * factor))


def doublings(count, factor):
    """Two more for each doubling: for an input whose time about doubles with each goal."""
    return max(2, count + round(2 * math.log2(factor)))


def bench_input(text, count, at=times, is_far=False):
    """Makes a function of a count one of the inputs, of which this text says what it is."""

    def note(make):
        INPUTS[make.__name__] = Input(make, text, count, at, is_far)
        return make

    return note


def count_at(name, factor):
    """How many goals, questions, candidates or tables the input has at this size."""
    given = INPUTS[name]
    return given.at(given.count, factor)


def rule(name, questions, marked=False):
    """A candidate of the goal; a question is a kind and a name."""
    return f"rule {'~' if marked else ''}{name} = " + " ".join(f"{kind}:{asked}" for kind, asked in questions)


def ask(depth, name):
    return f"ask {depth} {name}"


def goal(number):
    return f"g{number}"


def chain_of(goals):
    """Each goal asks the next, and the last one holds."""
    yield from (rule(goal(i), [("i", goal(i + 1))]) for i in range(goals))
    yield rule(goal(goals), [])


def ring_of(goals):
    """Each goal asks the next, and the last asks the first. One question in seven is coinductive."""
    return (rule(goal(i), [("c" if i % 7 == 0 else "i", goal((i + 1) % goals))]) for i in range(goals))


@bench_input("a chain of 40,000 goals, the last of which holds", 40000)
def chain(goals):
    yield from chain_of(goals)
    yield ask(goals, goal(0))


@bench_input("one cycle of 5,000 goals, asked at two of them", 5000)
def ring(goals):
    yield from ring_of(goals)
    yield from (ask(goals + 1, goal(i)) for i in (0, goals // 2))


@bench_input("150,000 goals without cycles, in 450,000 rules", 150000)
def acyclic(goals):
    draw = random.Random("goals without cycles")
    for i in range(goals):
        for _ in range(3):
            below = (min(goals, i + 1 + int(draw.expovariate(1 / 2000))) for _ in range(4))
            yield rule(goal(i), [(draw.choice("iiuc"), goal(b)) for b in below])
    yield rule(goal(goals), [])
    yield ask(9999999, goal(0))


@bench_input("150 goals that all reach each other, run again and again", 150)
def component(goals):
    draw = random.Random("goals that reach each other")
    for i in range(goals):
        yield rule(goal(i), [("c", goal((i + 1) % goals)), (draw.choice("ccci"), goal(draw.randrange(goals)))])
        yield rule(goal(i), [(draw.choice("cci"), goal(draw.randrange(goals)))])
    yield rule(goal(3), [("i", goal(3))])
    yield rule(goal(9), [("i", "none"), ("c", goal(10))])
    yield from (ask(goals + 1, goal(i)) for i in range(0, goals, 4))


@bench_input("12 goals that ask each other by both kinds of steps, in 180,000 runs", 12, doublings)
def dense(goals):
    for kind in "ci":
        yield from (rule(goal(i), [(kind, goal(j)) for j in range(goals)]) for i in range(goals))
    yield from (ask(9999999, goal(i)) for i in range(2))


@bench_input("a chain of 200 goals, and two million questions that the cache answers", 2000000)
def hits(questions):
    yield from chain_of(200)
    yield ask(300, goal(0))
    yield from (ask(200 + k % 90, goal(k * 7 % 201)) for k in range(questions))


@bench_input("4,500 goals in one cycle, each of which asks a stored result with 600 goals below it", 4500)
def nested_hits(goals):
    below = max(1, goals * 2 // 15)
    yield from (rule(goal(i), [("c", goal((i + 1) % below))]) for i in range(below))
    for i in range(goals):
        yield rule(f"h{i}", [("i", f"h{(i + 1) % goals}"), ("i", goal(0)), ("u", goal(0)), ("i", goal(0))])
    yield from (ask(goals + below, name) for name in (goal(0), "h0"))


@bench_input("two goals with 80,000 candidates each, most of which are ignored", 80000)
def wide(candidates):
    goals = max(1, candidates // 40)
    draw = random.Random("goals with many candidates")
    for top in "ab":
        for _ in range(candidates):
            asked = [(draw.choice("ic"), f"{top}{draw.randrange(goals)}") for _ in range(draw.randint(1, 12))]
            yield rule(top, asked, marked=top == "a" or draw.random() < 0.9)
        for i in range(goals):
            further = [("i", f"{top}{i + 1}")] if i % 50 else []
            yield rule(f"{top}{i}", [(draw.choice("iic"), top), *further])
    yield from (rule(name, []) for name in ("a", f"a{goals}", f"b{goals}"))
    yield from (ask(9999, name) for name in ("a", "b", "a7"))


@bench_input("1,500 goals, each of which is asked again below itself", 1500)
def heads(goals):
    for i in range(goals):
        asked = (min(goals - 1, i + 1), max(0, i - 1), max(0, i - 9))
        yield rule(goal(i), [("c", goal(a)) for a in asked])
    yield ask(goals + 1, goal(0))


@bench_input("300 goals, asked 7,200 times with too little depth", 300)
def shallow(goals):
    draw = random.Random("too little depth")
    for i in range(goals):
        for _ in range(2):
            yield rule(goal(i), [(draw.choice("iic"), goal(draw.randrange(goals))) for _ in range(3)])
    yield from (ask(depth, goal(i)) for depth in range(24) for i in range(goals))


@bench_input("12,000 small tables", 12000)
def small(tables):
    draw = random.Random("small tables")
    for table in range(tables):
        names = [f"t{table}_{i}" for i in range(draw.randint(1, 6))]
        for name in names:
            for _ in range(draw.randint(0, 3)):
                asked = [(draw.choice("iiiucccf"), draw.choice(names)) for _ in range(draw.choice((0, 1, 1, 2, 2, 3)))]
                yield rule(name, asked, marked=draw.random() < 0.2)
        yield from (ask(draw.randint(0, 7), draw.choice(names)) for _ in range(draw.randint(1, 4)))


@bench_input("a chain of 1,000,000 goals at depth 1,000,000", 1000000, is_far=True)
def long_chain(goals):
    yield from chain_of(goals)
    yield ask(goals, goal(0))


@bench_input("one cycle of 100,000 goals", 100000, is_far=True)
def long_ring(goals):
    yield from ring_of(goals)
    yield ask(goals, goal(0))


@bench_input("3,000,000 rules of 1,000,000 goals, all of which are worked out", 1000000, is_far=True)
def many_rules(goals):
    for i in range(goals):
        left, right = goal(min(goals, 2 * i + 1)), goal(min(goals, 2 * i + 2))
        yield rule(goal(i), [("i", left), ("i", right)])
        yield rule(goal(i), [("c", right), ("c", left)])
        yield rule(goal(i), [("u", left)])
    yield rule(goal(goals), [])
    yield ask(99, goal(0))


def forest(trees):
    """Trees of 150 goals, each of which holds where both below it do. What is asked are the roots."""
    for tree in range(trees):
        for at in range(150):
            yield rule(f"t{tree}_{at}", [("i", f"t{tree}_{below}") for below in (2 * at + 1, 2 * at + 2) if below < 150])
    yield from (ask(150, f"t{tree}_0") for tree in range(trees))


def names_of(is_far):
    """The inputs that are far, or those of the tables."""
    return [name for name, given in INPUTS.items() if given.is_far == is_far]


def write(folder, name, factor):
    """Writes the input at this size, and returns its path."""
    os.makedirs(folder, exist_ok=True)
    path = os.path.join(folder, f"{name}.in")
    with open(path, "w", encoding="ascii") as file:
        file.writelines(line + "\n" for line in INPUTS[name].make(count_at(name, factor)))
    return path


def main():
    words = argparse.ArgumentParser(description=__doc__, formatter_class=argparse.RawDescriptionHelpFormatter)
    words.add_argument("folder")
    words.add_argument("--size", type=float, default=1)
    words.add_argument("names", nargs="*", choices=[[], *INPUTS], default=[])
    given = words.parse_intermixed_args()
    for name in given.names or names_of(is_far=False):
        write(given.folder, name, given.size)


if __name__ == "__main__":
    main()
