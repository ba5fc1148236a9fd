#!/usr/bin/env python3
"""Times programs that answer as `zv edit` does side by side, on large inputs: processor time and peak memory.

    bench/beside.py [--wide | --shapes] [--runs RUNS] [--megabytes SIZE] PROGRAM ..

A PROGRAM is a command line in one word, as "old/zv edit" or "crates/zv/out/zv edit"; the ratios are to the first one.
The inputs have 15 MB unless SIZE says otherwise: an image, and lines of commands after it. With --wide the image has so many
pairs that its second keys and its values are wide. With --shapes the lines are of shapes that no program was tuned for: keys of
12 to 63 bytes, the shortest lines, one pair that is asked for or removed again and again, a value whose length changes. The
programs take turns, RUNS times (7), and the least time of each is told, and where an answer is not that of the first program.
GNU time is wanted (Debian's package `time`).

    bench/beside.py "../before/crates/zv/out/zv edit" "crates/zv/out/zv edit"
    bench/beside.py --wide "zerovec-edit" "crates/zv/out/zv edit"
"""
import argparse
import hashlib
import os
import random
import resource
import shlex
import subprocess
import sys
import tempfile

import model

# A child begins with the peak memory of the process that it was forked from, so a small one measures.
TIME = "/usr/bin/time"
IN_A_ROW = 40


def field(data):
    return "x" + data.hex()


class Table:
    """A table of pairs, whose second keys are even numbers behind a front, and lines of commands about it."""

    def __init__(self, pairs, is_wide, last=b"", front=b""):
        self.is_wide = is_wide
        self.front = front
        self.random = random.Random(1)
        self.rows = [front + b"r%04d" % row for row in range(max(1, pairs // IN_A_ROW))]
        self.table = {row: {self.second(2 * key): self.value() for key in range(IN_A_ROW)} for row in self.rows}
        if last:
            self.table[self.rows[-1]][self.second(2 * IN_A_ROW)] = last

    def second(self, number):
        return self.front + b"k%0*d" % (4 if self.front else 3, number)

    def value(self):
        return self.random.randbytes(self.random.randrange(2, 9))

    def keys(self, is_there):
        key = 2 * self.random.randrange(IN_A_ROW) + (0 if is_there else 1)
        return f"{field(self.random.choice(self.rows))} {field(self.second(key))}"

    def line(self, shares):
        """A line: a command by its share, with a pair that is there as often as the command's second number says."""
        names = list(shares)
        name = self.random.choices(names, [share for share, _ in shares.values()])[0]
        if name == "row":
            return f"row {field(self.random.choice(self.rows))}"
        keys = self.keys(self.random.random() < shares[name][1])
        return f"{name} {keys} {field(self.value())}" if name == "put" else f"{name} {keys}"

    def image(self):
        """The image, without a head where the table is narrow: only a last element may then reach beyond 64 KB."""
        return model.canonical(self.table) if self.is_wide else model.framed(model.parts(*model.lists(self.table), (2, 2, 2)))

    def input(self, shares, size):
        """The image and lines up to so many bytes, or the image alone."""
        lines = [field(self.image())]
        left = size - len(lines[0]) - 1
        while shares and left > 64:
            lines.append(self.line(shares))
            left -= len(lines[-1]) + 1
        return ("\n".join(lines) + "\n").encode()


# The share of each command, and of its pairs that are there.
GETS = {"get": (95, 0.8), "put": (4, 1), "row": (1, 1)}
PUTS = {"put": (70, 0.5), "del": (15, 0.5), "get": (15, 0.5)}
MIXED = {"get": (40, 0.8), "put": (30, 0.5), "del": (20, 0.5), "row": (10, 1)}


def inputs(size, is_wide):
    """The name and the bytes of each input."""
    pairs = size // 125 if is_wide else 2_400
    yield "get", Table(pairs, is_wide).input(GETS, size)
    yield "put", Table(pairs, is_wide).input(PUTS, size)
    yield "mixed", Table(pairs, is_wide).input(MIXED, size)
    yield "value", Table(320, is_wide, bytes(size // 2 - 10_000)).input({}, size)
    yield "none", Table(size // 45 if is_wide else 5_600, is_wide).input({}, size)


ONE_PAIR = {b"a": {b"b": b"\x01"}}


def repeated(table, line, size):
    """The image of a table and one line again and again, up to so many bytes."""
    image = field(model.framed(model.parts(*model.lists(table), (2, 2, 2)))) + "\n"
    return (image + (line + "\n") * ((size - len(image)) // (len(line) + 1))).encode()


def resized(size):
    """A value of some ten bytes whose length changes with each line, before one of 60,000."""
    lines, left = [], size - 130_000
    while left > 0:
        lines.append(f"put x61 x61 {field(bytes(7 + len(lines) % 8))}")
        left -= len(lines[-1]) + 1
    image = field(model.framed(model.parts(*model.lists({b"a": {b"a": bytes(10), b"b": bytes(60_000)}}), (2, 2, 2))))
    return (image + "\n" + "\n".join(lines) + "\n").encode()


def shapes(size):
    """The name and the bytes of each input whose lines are of another shape."""
    key = field(b"k" * 13)
    for long in (12, 14, 22, 63):
        table = Table(400 if long > 22 else 1_200, False, front=b"f" * (long - 5))
        yield f"get{long}", table.input(GETS, size)
        yield f"put{long}", Table(400 if long > 22 else 1_200, False, front=b"f" * (long - 5)).input(PUTS, size)
    yield "put one", repeated({}, f"put {key} {key} x01", size)
    yield "row x", repeated(ONE_PAIR, "row x", size)
    yield "get x x", repeated(ONE_PAIR, "get x x", size)
    yield "put x x", repeated(ONE_PAIR, "put x x x", size)
    yield "get hit", repeated(ONE_PAIR, "get x61 x62", size)
    yield "del no", repeated(ONE_PAIR, "del x61 x63", size)
    yield "resize", resized(min(size, 2_600_000))


def run(program, path, folder):
    """The processor time, the peak memory in KB and the digest of the answer of one run."""
    told, answer = os.path.join(folder, "told"), os.path.join(folder, "answer")
    before = resource.getrusage(resource.RUSAGE_CHILDREN)
    with open(path, "rb") as source, open(answer, "wb") as sink:
        command = [TIME, "-f", "%M", "-o", told, *shlex.split(program)]
        subprocess.run(command, stdin=source, stdout=sink, check=True)
    after = resource.getrusage(resource.RUSAGE_CHILDREN)
    with open(answer, "rb") as file:
        digest = hashlib.file_digest(file, "sha256").hexdigest()
    with open(told) as file:
        peak = int(file.read())
    return after.ru_utime - before.ru_utime + after.ru_stime - before.ru_stime, peak, digest


def compare(programs, name, data, runs):
    """Prints a line for each program."""
    least, peaks, answers = {}, {}, {}
    with tempfile.TemporaryDirectory() as folder:
        path = os.path.join(folder, "input")
        with open(path, "wb") as file:
            file.write(data)
        for _ in range(runs):
            for program in programs:
                time, peak, answers[program] = run(program, path, folder)
                least[program] = min(time, least.get(program, time))
                peaks[program] = max(peak, peaks.get(program, 0))
    first = programs[0]
    for program in programs:
        ratio = least[program] / least[first]
        other = "" if answers[program] == answers[first] else " (another answer)"
        print(f"{name:8} {len(data):9} {least[program]:8.3f} s {peaks[program] / 1024:7.1f} MB {ratio:6.2f}  {program}{other}", flush=True)


def main():
    parser = argparse.ArgumentParser(description=__doc__, formatter_class=argparse.RawDescriptionHelpFormatter)
    kinds = parser.add_mutually_exclusive_group()
    kinds.add_argument("--wide", action="store_true")
    kinds.add_argument("--shapes", action="store_true")
    parser.add_argument("--runs", type=int, default=7)
    parser.add_argument("--megabytes", type=float, default=15)
    parser.add_argument("programs", nargs="+", metavar="PROGRAM")
    given = parser.parse_args()
    if not os.path.exists(TIME):
        sys.exit(f"{TIME} is not there: install Debian's package `time`")
    size = int(given.megabytes * 1_000_000)
    for name, data in shapes(size) if given.shapes else inputs(size, given.wide):
        compare(given.programs, name, data, given.runs)


if __name__ == "__main__":
    main()
