#!/usr/bin/env python3
"""Writes rules of so many goals whose names have one and the same head in the program's list of links, and begin alike, so that
they also go the same way from there for 64 steps: alike_names.py COUNT."""
import bisect
import itertools
import sys

# `head_of` in crates/line_texts/src/names/links.rt multiplies a name's bytes, the first one lowest, by this number; the highest
# bits of the product say which head it is.
FACTOR = 0x9E37_79B9_7F4A_7C15_F39C_C060_5CED_C835
MODULUS = 1 << 128
BEGINNING = b"aaaaaaaa"
LETTERS = b"abcdefghijklmnopqrstuvwxyz012345"


def product(place, letters):
    """What these letters add to the product of a name in which so many stand before them."""
    return int.from_bytes(letters, "little") * FACTOR << 8 * place & MODULUS - 1


def names(heads):
    """The names of sixteen letters that have the first of so many heads, which are a power of two."""
    fours = [bytes(four) for four in itertools.product(LETTERS, repeat=4)]
    ends = sorted((product(12, four), four) for four in fours)
    first = product(0, BEGINNING)
    width = MODULUS // heads
    for middle in fours:
        wanted = -(first + product(8, middle)) % MODULUS
        for place in range(bisect.bisect_left(ends, (wanted, b"")), len(ends)):
            added, end = ends[place]
            if added >= wanted + width:
                break
            yield (BEGINNING + middle + end).decode()


def main():
    count = int(sys.argv[1])
    # There are as many heads as names, at most twice as many.
    heads = 8
    while heads < count:
        heads *= 2
    for name in itertools.islice(names(heads), count):
        print(f"rule {name} =")


if __name__ == "__main__":
    main()
