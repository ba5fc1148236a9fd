#!/usr/bin/env python3
"""Turns a table of text into what `zv edit` and `zv locale` read, and what they write back into text.

    examples/table.py put TABLE.tsv       an input that puts the table's lines into the empty map
    examples/table.py get KEY0 KEY1 ..    adds a look-up of each pair of keys to the input that it reads
    examples/table.py show [INPUT]        the image in the output that it reads, as such a table
    examples/table.py ask KEY0 WANTED ..  asks, for `zv locale`, of the image in the output that it reads
    examples/table.py asked INPUT         what the asks of an input are answered, in the output that it reads

A line of a table is a first key, a second key and a value, with a tab between them. Keys and values
are texts in UTF-8 here; `zv` takes any bytes as a value. docs/FORMATS.md describes the image.
Given the input that the output answers, `show` begins with each pair that was looked up, found or not, and each pair whose
value was `toolarge`.

    examples/table.py put examples/regions.tsv | examples/table.py get sd Khoj > input
    ./zv edit < input | examples/table.py show input
"""
import os
import struct
import sys

EMPTY_IMAGE = bytes(32)
MARK = b"\xff" * 8  # what a head begins with
FIELDS = {16: "H", 32: "I"}  # a field of a list, by the number of its bits


def field(data):
    return "x" + data.hex()


def text(data):
    """The text of some bytes, or of a field."""
    data = bytes.fromhex(data[1:]) if isinstance(data, str) else data
    try:
        return data.decode()
    except UnicodeDecodeError:
        raise ValueError(f"{field(data)} is no text in UTF-8") from None


def lines_of(path):
    """The lines of a file, or of standard input."""
    with open(path or 0, "rb") as file:
        *lines, last = text(file.read()).split("\n")
        return [*lines, last] if last else lines


def put(path):
    yield field(EMPTY_IMAGE)
    for number, line in enumerate(lines_of(path), 1):
        words = line.split("\t")
        if len(words) != 3 or line.endswith("\r"):
            raise ValueError(f"{path}:{number}: wanted are three words with tabs between them, and no CR behind them")
        yield " ".join(("put", *(field(word.encode()) for word in words)))


def get(keys):
    if len(keys) % 2:
        raise ValueError("keys are wanted in pairs")
    yield from lines_of(None)
    for key0, key1 in zip(keys[::2], keys[1::2]):
        yield f"get {field(key0.encode())} {field(key1.encode())}"


def formats(image):
    """What a field is in the first keys, the second keys and the values, and the frame behind the head."""
    if not image.startswith(MARK):
        return ["H"] * 3, image
    return [FIELDS[bits] for bits in image[8:11]], image[11:]


def parts(frame):
    """The four parts of a frame, each after its length as eight bytes."""
    place = 0
    for _ in range(4):
        (length,) = struct.unpack_from("<Q", frame, place)
        yield frame[place + 8:place + 8 + length]
        place += 8 + length


def elements(field, part):
    """The elements of a list: its count, the start of each but the first, their bytes."""
    if not part:
        return []
    width = struct.calcsize(field)
    (count,) = struct.unpack_from("<" + field, part)
    data = part[width * count:]
    starts = (0, *struct.unpack_from(f"<{count - 1}{field}", part, width), len(data))
    return [text(data[start:end]) for start, end in zip(starts, starts[1:])]


def triples(image):
    """The first key, the second key and the value of each pair."""
    fields, frame = formats(image)
    keys0, joiner, keys1, values = parts(frame)
    keys0, keys1, values = map(elements, fields, (keys0, keys1, values))
    ends = struct.unpack(f"<{len(joiner) // 4}I", joiner)
    for key0, start, end in zip(keys0, (0, *ends), ends):
        for key1, value in zip(keys1[start:end], values[start:end]):
            yield key0, key1, value


def answered(commands, replies):
    """What was looked up, and found or not; and what was too large."""
    if len(commands) != len(replies):
        raise ValueError(f"{len(commands)} commands and {len(replies)} replies")
    for command, reply in zip(commands, replies):
        (name, *fields), (kind, *values) = command.split(" "), reply.split(" ")
        if name in ("get", "ask") or kind == "toolarge":
            yield "\t".join(("# " + kind, *map(text, fields[:2] + values)))


def edited():
    """The replies of an edit, and its image as a field."""
    *replies, last = lines_of(None) or ["there is no output of `zv edit`"]
    if not last.startswith("image x"):
        raise ValueError(last)
    return replies, last[len("image "):]


def show(path):
    replies, image = edited()
    if path:
        yield from answered(lines_of(path)[1:], replies)
    yield from map("\t".join, triples(bytes.fromhex(image[1:])))


def ask(keys):
    if len(keys) % 2:
        raise ValueError("each key wants a text of locales")
    yield edited()[1]
    for key0, wanted in zip(keys[::2], keys[1::2]):
        yield f"ask {field(key0.encode())} {field(wanted.encode())}"


def main(words):
    match words:
        case ["put", path]:
            lines = put(path)
        case ["get", *keys] if keys:
            lines = get(keys)
        case ["ask", *keys] if keys:
            lines = ask(keys)
        case ["asked", path]:
            lines = answered(lines_of(path)[1:], lines_of(None))
        case ["show"]:
            lines = show(None)
        case ["show", path]:
            lines = show(path)
        case _:
            sys.exit(__doc__)
    # Nothing is written before everything is read.
    try:
        print(*list(lines), sep="\n", flush=True)
    except (OSError, ValueError, KeyError, struct.error) as error:
        # What is left to be written would be tried again at the end.
        os.dup2(os.open(os.devnull, os.O_WRONLY), 1)
        sys.exit(f"examples/table.py: {error}")


if __name__ == "__main__":
    main(sys.argv[1:])
