#!/usr/bin/env python3
"""Draws docs/image.svg, the bytes of the image in examples/locales.txt, and docs/speed.svg, the times in docs/speed.tsv.

    docs/pictures.py          writes both pictures
"""
import pathlib
import struct

TOP = pathlib.Path(__file__).resolve().parent.parent
FONT = 'font-family="DejaVu Sans Mono, Menlo, Consolas, monospace"'
COLOURS = {"length": "#d7e3f4", "count": "#f9e0c7", "start": "#fbf3c4", "end": "#fbf3c4", "element": "#d8efd3"}


class Drawing:
    """The elements of an SVG picture, and its size."""

    def __init__(self, width, height):
        self.width, self.height, self.items = width, height, []

    def box(self, x, y, width, height, colour):
        self.items.append(f'<rect x="{x:g}" y="{y:g}" width="{width:g}" height="{height:g}" '
                          f'fill="{colour}" stroke="#555"/>')

    def text(self, x, y, words, size=13, anchor="middle", weight="normal"):
        words = words.replace("&", "&amp;").replace("<", "&lt;")
        self.items.append(f'<text x="{x:g}" y="{y:g}" font-size="{size}" text-anchor="{anchor}" '
                          f'font-weight="{weight}" {FONT}>{words}</text>')

    def save(self, path, title):
        head = (f'<svg xmlns="http://www.w3.org/2000/svg" viewBox="0 0 {self.width} {self.height}" '
                f'width="{self.width}" height="{self.height}" role="img">')
        back = f'<rect width="{self.width}" height="{self.height}" fill="white"/>'
        path.write_text("\n".join([head, f"<title>{title}</title>", back, *self.items, "</svg>", ""]))


def list_fields(part):
    """The fields of a list in Index16: what each is, its bytes, and what they say."""
    (count,) = struct.unpack_from("<H", part)
    yield "count", part[:2], str(count)
    starts = [0]
    for place in range(2, 2 * count, 2):
        (start,) = struct.unpack_from("<H", part, place)
        starts.append(start)
        yield "start", part[place:place + 2], str(start)
    data = part[2 * count:]
    for start, end in zip(starts, [*starts[1:], len(data)]):
        yield "element", data[start:end], f"“{data[start:end].decode()}”"


def number_fields(part):
    """The fields of a list of u32."""
    for place in range(0, len(part), 4):
        yield "end", part[place:place + 4], str(*struct.unpack_from("<I", part, place))


def draw_image(path):
    image = bytes.fromhex((TOP / "examples/locales.txt").read_text().splitlines()[0][1:])
    parts = [("keys0", "the first key of each row", list_fields), ("joiner", "where each row ends", number_fields),
             ("keys1", "the second keys of all rows", list_fields), ("values", "their values", list_fields)]
    byte, left, place = 33, 12, 0
    drawing = Drawing(left * 2 + byte * 26, 94 * len(parts) + 44)
    drawing.text(left, 22, f"The image of examples/locales.txt, {len(image)} bytes", 15, "start", "bold")
    for number, (name, meaning, fields) in enumerate(parts):
        y = 44 + 94 * number
        (length,) = struct.unpack_from("<Q", image, place)
        part = image[place + 8:place + 8 + length]
        drawing.text(left, y + 12, f"{name}: {meaning} (from byte {place})", 13, "start", "bold")
        x = left
        for kind, data, words in [("length", image[place:place + 8], f"{length} bytes follow"), *fields(part)]:
            width = byte * len(data)
            drawing.box(x, y + 20, width, 24, COLOURS[kind])
            for index, value in enumerate(data):
                drawing.text(x + byte * (index + 0.5), y + 37, f"{value:02x}")
            drawing.text(x + width / 2, y + 60, words, 12)
            drawing.text(x + width / 2, y + 74, kind, 10)
            x += width
        place += 8 + length
    assert place == len(image)
    drawing.save(path, "The bytes of the image of a table of three pairs")


def draw_speed(path):
    lines = (TOP / "docs/speed.tsv").read_text().splitlines()
    rows = [line.split("\t") for line in lines if line and not line.startswith("#")]
    note = next(line[1:].strip() for line in lines if line.startswith("#"))
    left, scale, step = 330, 300, 24
    drawing = Drawing(left + scale * 2 + 40, step * len(rows) + 84)
    drawing.text(12, 22, "Time here as a share of zerovec's", 15, "start", "bold")
    for number, (name, here, there, unit) in enumerate(rows):
        y = 36 + step * number
        ratio = float(here) / float(there)
        drawing.text(left - 10, y + 15, name, 12, "end")
        drawing.box(left, y + 3, scale * min(ratio, 1.9), 15, "#d8efd3" if ratio <= 1 else "#f9e0c7")
        drawing.text(left + scale * min(ratio, 1.9) + 6, y + 15, f"{ratio:.2f}  ({here} {unit})", 11, "start")
    bottom = 36 + step * len(rows)
    drawing.items.append(f'<line x1="{left + scale}" y1="32" x2="{left + scale}" y2="{bottom + 4}" stroke="#a00"/>')
    drawing.text(left + scale, bottom + 18, "zerovec", 11)
    drawing.text(12, bottom + 38, note, 11, "start")
    drawing.save(path, "Times beside the crate zerovec")


if __name__ == "__main__":
    draw_image(TOP / "docs/image.svg")
    if (TOP / "docs/speed.tsv").exists():
        draw_speed(TOP / "docs/speed.svg")
