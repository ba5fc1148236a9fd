#!/usr/bin/env python3
"""Times the built program `zv` on large inputs: processor time and peak memory.

    bench/program.py [RUNS]

Build it first (`./zv --prove`), and have GNU time (Debian's package `time`). Inputs are
made in a temporary folder. Each line says the least processor time of RUNS runs (5 by default), that time
for each line of the input after the image, and the largest peak memory.
"""
import os
import resource
import struct
import subprocess
import sys
import tempfile

from model import canonical, spelled

TOP = os.path.dirname(os.path.dirname(os.path.abspath(__file__)))
# A child begins with the peak memory of the process that it was forked from, so a small one measures.
TIME = "/usr/bin/time"
PROGRAM = os.path.join(TOP, "crates", "zv", "out", "zv")


def gets(table, size):
    """An image and `get` lines up to about `size` bytes; every fourth pair is not there."""
    out = spelled(canonical(table)) + b"\n"
    lines = []
    for first in sorted(table):
        for second in sorted(table[first]):
            lines.append(b"get " + spelled(first) + b" " + spelled(second) + b"\n")
            if len(lines) % 4 == 3:
                lines.append(b"get " + spelled(first) + b" " + spelled(b"Zzzz") + b"\n")
    block = b"".join(lines)
    return out + block * max(1, (size - len(out)) // len(block))


def puts(size):
    """The empty image and `put` lines of new pairs up to about `size` bytes: the lists grow, and become wide."""
    out, number, total = [spelled(canonical({})) + b"\n"], 0, 0
    while total < size:
        first, second = b"r%d" % (number % 64), b"k%d" % number
        out.append(b"put " + spelled(first) + b" " + spelled(second) + b" " + spelled(struct.pack("<H", number % 65536)) + b"\n")
        total += len(out[-1])
        number += 1
    return b"".join(out)


def mixed(table, size):
    """An image and lines that look up, replace, remove, put again and list rows, up to about `size` bytes."""
    out, pairs = [spelled(canonical(table)) + b"\n"], [(a, b) for a in sorted(table) for b in sorted(table[a])]
    total, number = len(out[0]), 0
    while total < size:
        first, second = pairs[number * 7919 % len(pairs)]
        keys = spelled(first) + b" " + spelled(second)
        block = [b"get " + keys, b"put " + keys + b" " + spelled(b"GB"), b"del " + keys, b"row " + spelled(first), b"put " + keys + b" " + spelled(b"US")]
        out.append(b"\n".join(block) + b"\n")
        total += len(out[-1])
        number += 1
    return b"".join(out)


def asks(table, size):
    """An image and `ask` lines up to about `size` bytes: the third name that is tried is there."""
    out = spelled(canonical(table)) + b"\n"
    lines = [b"ask " + spelled(first) + b" " + spelled(second + b"-AT-1996") + b"\n" for first in sorted(table) for second in sorted(table[first])]
    block = b"".join(lines)
    return out + block * max(1, (size - len(out)) // len(block))


def layer(number, count, apart):
    """An image of about 1 MB: names of `count` territories in 150 languages; layers `apart` have no pair in common."""
    codes = range(number * count, number * count + count) if apart else range(count)
    return {b"l%03d" % i: {b"%05d" % j: b"name %d of %d" % (number, j) for j in codes} for i in range(150)}


def laid(layers):
    """The pairs of all layers, the last one on top."""
    table = {}
    for each in layers:
        for first, row in each.items():
            table.setdefault(first, {}).update(row)
    return table


def beside_edit(name, layers, runs):
    """The time of `layers` beside that of `edit` with no commands on each of its images and on its answer."""
    images = [spelled(canonical(each)) + b"\n" for each in layers]
    time, peak = measure("layers", b"".join(images), runs)
    edits = sum(measure("edit", image, runs)[0] for image in images + [spelled(canonical(laid(layers))) + b"\n"])
    print(f"{name:40} {sum(map(len, images)):10} {time * 1000:7.0f} ms {peak / 1024:16.1f} MB, {time / edits:.2f} of edit")


def measure(form, data, runs):
    least, peak = None, 0
    with tempfile.TemporaryDirectory() as folder:
        path, told = os.path.join(folder, "input"), os.path.join(folder, "told")
        with open(path, "wb") as file:
            file.write(data)
        command = [TIME, "-f", "%M", "-o", told, PROGRAM, form]
        for _ in range(runs):
            before = resource.getrusage(resource.RUSAGE_CHILDREN)
            with open(path, "rb") as source:
                subprocess.run(command, stdin=source, stdout=subprocess.DEVNULL, check=True)
            after = resource.getrusage(resource.RUSAGE_CHILDREN)
            time = after.ru_utime - before.ru_utime + after.ru_stime - before.ru_stime
            least = time if least is None else min(least, time)
            with open(told) as file:
                peak = max(peak, int(file.read()))
    return least, peak


def main():
    runs = int(sys.argv[1]) if len(sys.argv) > 1 else 5
    if not os.path.exists(TIME):
        sys.exit(f"{TIME} is not there: install Debian's package `time`")
    if not os.path.exists(PROGRAM):
        sys.exit("build the program first: ./zv --prove")
    small = {b"a": {b"b": b"\x01"}}
    scripts = [b"Arab", b"Cyrl", b"Deva", b"Hans", b"Hant", b"Khoj", b"Latn"]
    locales = {b"%c%c" % (97 + i // 26, 97 + i % 26): {s: b"US" for s in scripts} for i in range(400)}
    territories = {b"l%03d" % i: {b"%c%c" % (65 + j // 26, 65 + j % 26): b"name of %d" % j for j in range(250)} for i in range(150)}
    long = {b"a": {b"b": b"\x07" * 4_000_000}}
    names = {name: {locale: b"US" for locale in (b"da", b"de", b"en", b"fr", b"it", b"nl", b"sv")} for name in locales}
    inputs = [
        ("1 MB of get lines, one pair", gets(small, 1_000_000)),
        ("15 MB of get lines, one pair", gets(small, 15_000_000)),
        ("1 MB of get lines, 2800 pairs", gets(locales, 1_000_000)),
        ("15 MB of get lines, 2800 pairs", gets(locales, 15_000_000)),
        ("15 MB of get lines, 37,500 pairs", gets(territories, 15_000_000)),
        ("a value of 4,000,000 bytes, no lines", spelled(canonical(long)) + b"\n"),
        ("1 MB of put lines, from the empty map", puts(1_000_000)),
        ("1 MB of get, put, del, row, 2800 pairs", mixed(locales, 1_000_000)),
        ("100 KB of get, put, del, row, 2800 pairs", mixed(locales, 100_000)),
        ("3 MB of get, put, del, row, 37,500 pairs", mixed(territories, 3_000_000)),
    ]
    asked = ("15 MB of ask lines, 2800 pairs", asks(names, 15_000_000))
    print(f"{'input':40} {'bytes':>10} {'processor':>10} {'a line':>10} {'peak':>10} {'peak/input':>10}")
    for form, (name, data) in [("edit", each) for each in inputs] + [("locale", asked)]:
        time, peak = measure(form, data, runs)
        lines = data.count(b"\n") - 1
        a_line = f"{time * 1e9 / lines:7.0f} ns" if lines else " " * 10
        ratio = peak * 1024 / len(data)
        print(f"{name:40} {len(data):10} {time * 1000:7.0f} ms {a_line} {peak / 1024:7.1f} MB {ratio:9.1f}x")
    for name, apart in [("8 layers of 1 MB, no pair in common", True), ("8 layers of 1 MB, the same pairs", False)]:
        beside_edit(name, [layer(number, 240, apart) for number in range(8)], runs)


if __name__ == "__main__":
    main()
