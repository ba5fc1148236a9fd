#!/usr/bin/env python3
"""Runs the built program `zv` and a model of it (model.py) on random inputs and a few made maps, and stops where they differ.

    bench/compare.py [SECONDS] [SEED]
    bench/compare.py --bytes

Build the program first (`./zv --prove`). Half of the images are those of a map, and the
others are changed at random; half of the inputs have values and keys at the lengths from which a list is wide.
With --bytes the images are a small one, one of 28 pairs, and the small one with wide lists; each byte of each is changed
to all 256 values, cut off with all behind it, left out, and doubled. That is some 154,000 runs, on all processors.
An input that is answered otherwise is written to `differs.txt` in the working folder.
"""
import collections
import concurrent.futures
import os
import random
import subprocess
import sys
import time

import model

TOP = os.path.dirname(os.path.dirname(os.path.abspath(__file__)))
PROGRAM = os.path.join(TOP, "crates", "zv", "out", "zv")
FORMS = {"edit": model.edit, "layers": model.layers, "locale": model.locale}
SHORT_KEYS = [b"", b"a", b"b", b"ab", b"abc", "é".encode(), "😀".encode(), b"A", b"a\0", b"k" * 12, b"k" * 13]
NAMES = [b"en", b"en-GB", b"en-US", b"eng", b"de", b"de-AT", b"de-AT-1996", b"und", b"a", b"b"]
LONG_KEYS = [b"q" * length for length in (32_760, 32_766, 65_520, 65_528, 65_533, 65_534, 65_535)]


class Inputs:
    """Inputs for the program, from a seed."""

    def __init__(self, seed):
        self.random = random.Random(seed)
        self.at_edges = False
        self.keys0 = self.keys1 = SHORT_KEYS

    def chance(self, likely):
        return self.random.random() < likely

    def key(self, short):
        return self.random.choice(LONG_KEYS if self.at_edges and self.chance(0.15) else short)

    def wanted(self):
        """A wanted text, mostly."""
        subtags = [b"en", b"de", b"GB", b"AT", b"1996", b"x", b"abcdefgh", b"fr"] + ([b"", b"abcdefghi", b"\xc3\xa9"] if self.chance(0.02) else [])
        locales = [b"-".join(self.random.choices(subtags, k=self.random.randrange(1, 5))) for _ in range(self.random.choice([1, 1, 2, 3, 15, 16]))]
        return b",".join(locales + [b"en"] * self.chance(0.01))

    def value(self):
        if self.at_edges:
            low, high = self.random.choice([(0, 4), (32_750, 32_770), (65_510, 65_537)])
            return bytes(self.random.randrange(low, high))
        return self.random.randbytes(self.random.choice([0, 1, 2, 8, 12, 13, self.random.randrange(300)]))

    def field(self, field):
        digits = field.hex()
        return b"x" + (digits.upper() if self.chance(0.2) else digits).encode()

    def changed(self, data):
        """The data with a few bytes cut off, appended or overwritten."""
        kind = self.random.randrange(3)
        if kind == 0:
            return data[: self.random.randrange(len(data) + 1)]
        if kind == 1:
            return data + self.random.randbytes(self.random.randrange(1, 5))
        data = bytearray(data)
        for _ in range(self.random.randrange(1, 3) if data else 0):
            data[self.random.randrange(len(data))] = self.random.choice([0, 1, 2, 3, 16, 32, 128, 255])
        return bytes(data)

    def widths(self, lists):
        """The widths of fields for lists: as each needs, or any."""
        return [self.random.choice([2, 4]) if self.chance(0.2) else model.needs(elements) for elements in lists]

    def image(self):
        rows = {}
        for _ in range(self.random.choice([0, 1, 1, 2, 3, 5, 9])):
            for _ in range(self.random.randrange(1, 4)):
                value = self.value() if self.chance(0.2) else self.random.randbytes(self.random.randrange(6))
                rows.setdefault(self.key(self.keys0), {})[self.key(self.keys1)] = value
        keys0, ends, keys1, values = model.lists(rows)
        kind = self.random.choice(["map"] * 5 + ["image", "head", "part", "joiner", "order", "text"])
        if kind == "joiner":
            ends = [max(0, end + self.random.choice([0, 0, 1, -1])) for end in ends]
        if kind == "order":
            self.random.shuffle(self.random.choice([keys0, keys1]))
        if kind == "text" and keys1:
            keys1[self.random.randrange(len(keys1))] = self.random.choice([b"\xff", b"\xc3", b"\xed\xa0\x80"])
        widths = self.widths((keys0, keys1, values))
        parts = model.parts(keys0, ends, keys1, values, widths)
        if kind == "part":
            at = self.random.randrange(4)
            parts[at] = self.random.choice([b"\0\0\7", self.changed(parts[at])])
        has_head = 4 in widths or self.chance(0.1)
        image = (model.head(widths) if has_head else b"") + model.framed(parts)
        if kind == "head":
            image = self.changed(image[:20]) + image[20:]
        return self.changed(image) if kind == "image" else image

    def command(self):
        name = self.random.choice([b"get", b"put", b"put", b"put", b"del", b"row"])
        fields = [self.key(self.keys0), self.key(self.keys1), self.value()][: len(model.COMMANDS[name])]
        return b" ".join([name] + [self.field(field) for field in fields])

    def ask(self):
        return b" ".join([b"ask", self.field(self.key(self.keys0)), self.field(self.wanted())])

    def lines(self, form):
        """The lines of an input: images for `layers`, and else one image and commands or asks."""
        if form == "layers":
            return [self.field(self.image()) for _ in range(self.random.choice([1, 2, 2, 3, 5, 9, 64, 65]))]
        line = self.command if form == "edit" else self.ask
        return [self.field(self.image())] + [line() for _ in range(self.random.choice([0, 1, 2, 5, 20, 60]))]

    def text(self, form):
        """An input of a form of the program."""
        self.at_edges = self.chance(0.5)
        self.keys0, self.keys1 = (SHORT_KEYS[:3], NAMES) if form == "locale" else (SHORT_KEYS, SHORT_KEYS)
        try:
            lines = self.lines(form)
        except OverflowError:  # the starts of so long a list don't fit their fields
            return self.text(form)
        text = bytearray(b"\n".join(lines) + (b"\n" if self.chance(0.8) else b""))
        if self.chance(0.1):
            at = self.random.randrange(len(text))
            text[at : at + self.random.randrange(2)] = self.random.choice([b" ", b"\n", b"x", b"g", b"\xff", b"\r", b""])
        return bytes(text)


def compare_made():
    for count in (0, 1, 2, 64, 65, 1000, 4000):
        done = subprocess.run([PROGRAM, "make", str(count)], capture_output=True, check=False)
        if (done.stdout, done.returncode) != (model.make(count), 0):
            sys.exit(f"make {count} is answered otherwise than by the model")


def differs(text):
    """Whether an input is answered otherwise than by the model, and the line or status by which it is refused."""
    done = subprocess.run([PROGRAM, "edit"], input=text, capture_output=True, check=False)
    wanted, status = model.edit(text)
    said = wanted.decode().strip() if status == 5 else f"status {status}"
    return (done.stdout, done.returncode) != (wanted, status), said


def whole_images():
    """A small image, one of 28 pairs, and the small one with wide lists."""
    small = {b"a": {b"b": b"\1"}}
    pairs = {b"l%d" % (i % 21): {} for i in range(28)}
    for i in range(28):
        pairs[b"l%d" % (i % 21)][b"Scr%d" % (i % 5)] = b"R%d" % (i % 9)
    widths = [4, 4, 4]
    return [
        model.canonical(small),
        model.canonical(pairs),
        model.head(widths) + model.framed(model.parts(*model.lists(small), widths)),
    ]


def changed_images():
    """Each image with each byte changed, and cut, without a byte, and with one twice."""
    for image in whole_images():
        for at, byte in enumerate(image):
            front, back = image[:at], image[at + 1 :]
            yield from (front + bytes([other]) + back for other in range(256))
            yield from (front, front + back, front + bytes([byte, byte]) + back)


def compare_bytes():
    def asked(image):
        text = model.spelled(image) + b"\nget x61 x62\nput x61 x63 x02\ndel x6c30 x53637230\nrow x6c30\n"
        return text, *differs(text)

    seen = collections.Counter()
    with concurrent.futures.ThreadPoolExecutor(os.cpu_count()) as pool:
        for text, is_other, said in pool.map(asked, changed_images()):
            if is_other:
                with open("differs.txt", "wb") as file:
                    file.write(text)
                sys.exit("differs.txt is answered otherwise than by the model")
            seen[said] += 1
    print(f"{sum(seen.values())} images: " + ", ".join(f"{count} {said}" for said, count in seen.most_common()))


def main():
    if sys.argv[1:] == ["--bytes"]:
        compare_bytes()
        return
    compare_made()
    seconds = float(sys.argv[1]) if len(sys.argv) > 1 else 60
    inputs = Inputs(int(sys.argv[2]) if len(sys.argv) > 2 else 1)
    seen, end = collections.Counter(), time.monotonic() + seconds
    while time.monotonic() < end:
        form = inputs.random.choice(["edit", "edit", "locale", "layers"])
        text = inputs.text(form)
        done = subprocess.run([PROGRAM, form], input=text, capture_output=True, check=False)
        wanted, status = FORMS[form](text)
        if (done.stdout, done.returncode) != (wanted, status):
            with open("differs.txt", "wb") as file:
                file.write(text)
            sys.exit(f"{form}: differs.txt is answered otherwise: status {done.returncode}, and {status} by the model")
        seen[f"inputs of {form}"] += 1
        seen.update(line.split(b" ")[0].decode() for line in wanted.splitlines() if status == 0)
        if status != 0:
            seen[wanted.decode().strip() if status == 5 else "error line"] += 1
    print(", ".join(f"{count} {word}" for word, count in seen.most_common()))


if __name__ == "__main__":
    main()
