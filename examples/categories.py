#!/usr/bin/env python3
"""Keeps the general category of each code point in a table of `zv props`, and asks all of them back.

    examples/categories.py [PROGRAM..]     with ./zv, or with another program and its first words

The categories are those of Python's `unicodedata`, numbered from 1 in the order of their names; a code
point that is not assigned (Cn) has the value 0. The table is built of one `set` for each range of code
points of one category, in the order of the code points and once more in a mixed order, which has to
leave the same table. It ends with the table's size, beside that of an array with a value for each code point.
"""
import itertools
import random
import subprocess
import sys
import unicodedata

CODE_POINTS = 0x110000


def values():
    """The value of each code point."""
    names = [unicodedata.category(chr(c)) for c in range(CODE_POINTS)]
    numbers = {name: number for number, name in enumerate(sorted(set(names) - {"Cn"}), 1)}
    return [numbers.get(name, 0) for name in names]


def ranges(wanted):
    """The ranges of code points that have one value above 0, each with its ends and the value."""
    for value, group in itertools.groupby(range(CODE_POINTS), lambda c: wanted[c]):
        group = list(group)
        if value:
            yield group[0], group[-1], value


def run(program, lines):
    """The lines that the program answers, given those of a table."""
    done = subprocess.run([*program, "props"], input="\n".join(lines) + "\n", capture_output=True, text=True)
    if done.returncode:
        sys.exit(f"categories: {' '.join(program)} ended with {done.returncode}: {done.stdout}{done.stderr}")
    return done.stdout.splitlines()


def table_of(program, sets):
    """The field of the table that the sets leave."""
    *replies, last = run(program, ["x", *(f"set {first} {last} {value}" for first, last, value in sets)])
    if replies != ["ok"] * len(sets):
        sys.exit("categories: a set has another reply than ok")
    return last.removeprefix("table ")


def main():
    program = sys.argv[1:] or ["./zv"]
    wanted = values()
    sets = list(ranges(wanted))
    table = table_of(program, sets)
    random.Random(1).shuffle(sets)
    if table_of(program, sets) != table:
        sys.exit("categories: the order of the sets changes the table")
    *replies, last = run(program, [table, *(f"at {c}" for c in range(CODE_POINTS))])
    if last != f"table {table}":
        sys.exit("categories: look-ups change the table")
    for c, (value, reply) in enumerate(zip(wanted, replies, strict=True)):
        if reply != f"value {value}":
            sys.exit(f"categories: U+{c:04X} has the value {value}, and the reply is {reply}")
    size = len(table) // 2
    print(f"{CODE_POINTS:,} code points have their values, of Unicode {unicodedata.unidata_version}")
    print(f"the table has {size // 10:,} rows and {size:,} bytes; an array of two bytes each has {2 * CODE_POINTS:,}")


main()
