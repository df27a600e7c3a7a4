#!/usr/bin/env python3
"""Writes declarations of so many types whose names the program `traits` finds in one and the same place of its table of names, as
somebody may choose them who knows how names are hashed, and a question about the last one: alike.py COUNT."""
import itertools
import sys

# `FoldHasher` of Rattle's library multiplies so, by a number that is changed by twice the count of bytes that are written at once.
BEGINNING, FACTOR = 0x243F_6A88_85A3_08D3, 0x9E37_79B9_7F4A_7C15
ALL = (1 << 64) - 1
LETTERS = b"abcdefghijklmnopqrstuvwxyz"
LENGTH = 8


def folded(state, read, count):
    """The state behind so many bytes that are written at once and read as this number."""
    product = (state ^ read) * (FACTOR ^ 2 * count)
    return product & ALL ^ product >> 64


def names(place):
    """The names of eight letters with zeros there in their hash: the length is written first, and then each letter alone."""
    start = folded(BEGINNING, LENGTH, 8)
    for letters in itertools.product(LETTERS, repeat=LENGTH - 1):
        state = start
        for letter in letters:
            state = folded(state, letter, 1)
        for last in LETTERS:
            found = folded(state, last, 1)
            if (found ^ found >> 32) & place == 0:
                yield bytes(letters).decode() + chr(last)


def main():
    count = int(sys.argv[1])
    # A group of the table has nine entries at most on average.
    groups = 1
    while 9 * groups < count:
        groups *= 2
    print("auto trait A {}")
    for name in itertools.islice(names(groups - 1), count):
        print(f"struct {name};")
    print(f"{name}: A?")


if __name__ == "__main__":
    main()
