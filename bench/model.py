"""A model of `zv edit`, `zv layers` and `zv make` in Python, written from docs/FORMATS.md and apart from the program: see compare.py."""
import re

MOST_NARROW = 65_535  # the most bytes of a list with fields of two bytes
MOST = 4_294_967_295  # and of one with fields of four
MOST_INPUT = 16_777_216
MOST_LAYERS = 64
MARK = b"\xff" * 8  # what a head begins with
WIDTHS = {16: 2, 32: 4}  # the bytes of a field, by what a head names


class Refused(Exception):
    """The word for the first cause for which an image is refused."""


def encoded(elements, width):
    """A list of elements of any length: count, starts but for the first, bytes."""
    if not elements:
        return b""
    fields, start = [len(elements)], 0
    for element in elements[:-1]:
        start += len(element)
        fields.append(start)
    return b"".join(field.to_bytes(width, "little") for field in fields) + b"".join(elements)


def decoded(part, width, is_valid):
    """The list that a part spells, with fields of so many bytes."""
    if not part:
        return []
    if len(part) < width:
        raise Refused("parse")
    count = int.from_bytes(part[:width], "little")
    if count == 0:
        return []
    if len(part) < width * count:
        raise Refused("parse")
    data = part[width * count :]
    starts = [int.from_bytes(part[width * i : width * i + width], "little") for i in range(1, count)]
    elements = []
    for start, end in zip([0] + starts, starts + [len(data)]):
        if not start <= end <= len(data) or not is_valid(data[start:end]):
            raise Refused("parse")
        elements.append(data[start:end])
    return elements


def is_text(element):
    try:
        element.decode()
    except UnicodeDecodeError:
        return False
    return True


def framed(parts):
    return b"".join(len(part).to_bytes(8, "little") + part for part in parts)


def unframed(frame):
    parts, at = [], 0
    for _ in range(4):
        length = int.from_bytes(frame[at : at + 8], "little")
        if len(frame) < at + 8 or len(frame) < at + 8 + length:
            raise Refused("frame")
        parts.append(frame[at + 8 : at + 8 + length])
        at += 8 + length
    if at != len(frame):
        raise Refused("frame")
    return parts


def formats(image):
    """The widths of the three lists, and the frame behind the head."""
    if not image.startswith(MARK):
        return [2, 2, 2], image
    names = image[8:11]
    if len(names) < 3 or any(name not in WIDTHS for name in names):
        raise Refused("frame")
    return [WIDTHS[name] for name in names], image[11:]


def ascends(numbers_or_keys):
    return all(a < b for a, b in zip(numbers_or_keys, numbers_or_keys[1:]))


def parsed(image):
    """The map of an image, as a dict of dicts, or the cause for which it is refused."""
    (width0, width1, width2), frame = formats(image)
    keys0, joiner, keys1, values = unframed(frame)
    if len(joiner) % 4:
        raise Refused("length")
    keys0, keys1 = decoded(keys0, width0, is_text), decoded(keys1, width1, is_text)
    values = decoded(values, width2, lambda _: True)
    ends = [int.from_bytes(joiner[i : i + 4], "little") for i in range(0, len(joiner), 4)]
    if len(keys0) != len(ends):
        raise Refused("keys0joiner")
    if len(keys1) != len(values):
        raise Refused("keys1values")
    if not ascends([0] + ends):
        raise Refused("joinerorder")
    if ([0] + ends)[-1] != len(keys1):
        raise Refused("joinerend")
    rows = list(zip([0] + ends, ends))
    if not ascends(keys0) or not all(ascends(keys1[start:end]) for start, end in rows):
        raise Refused("keyorder")
    return {key: dict(zip(keys1[start:end], values[start:end])) for key, (start, end) in zip(keys0, rows)}


def lists(rows):
    """The four lists of a map: first keys, ends of rows, second keys, values."""
    keys0 = sorted(rows)
    pairs = [[(key, rows[first][key]) for key in sorted(rows[first])] for first in keys0]
    ends = [sum(map(len, pairs[: i + 1])) for i in range(len(pairs))]
    return keys0, ends, [key for row in pairs for key, _ in row], [value for row in pairs for _, value in row]


def size(elements, width):
    return width * len(elements) + sum(map(len, elements))


def needs(elements):
    """The width of the fields that a list needs."""
    return 4 if elements and size(elements, 2) > MOST_NARROW else 2


def parts(keys0, ends, keys1, values, widths):
    """The four parts of a map whose lists have fields of these widths."""
    width0, width1, width2 = widths
    joiner = b"".join(end.to_bytes(4, "little") for end in ends)
    return [encoded(keys0, width0), joiner, encoded(keys1, width1), encoded(values, width2)]


def head(widths):
    return MARK + bytes(8 * width for width in widths)


def canonical(rows):
    """The one image that a map is written as: with a head where a list is wide."""
    keys0, ends, keys1, values = lists(rows)
    widths = [needs(elements) for elements in (keys0, keys1, values)]
    return (head(widths) if 4 in widths else b"") + framed(parts(keys0, ends, keys1, values, widths))


def takes(elements, length):
    return length < MOST and (not elements or size(elements, 4) + length + 4 <= MOST)


def takes_instead(elements, old, length):
    return length < MOST and (length <= old or size(elements, 4) + length - old <= MOST)


def fits(rows, key0, key1, value):
    keys0, _, keys1, values = lists(rows)
    old = rows.get(key0, {}).get(key1)
    if old is not None:
        return takes_instead(values, len(old), len(value))
    return (key0 in rows or takes(keys0, len(key0))) and takes(keys1, len(key1)) and takes(values, len(value))


def spelled(field):
    return b"x" + field.hex().encode()


def value_of(word):
    return bytes.fromhex(word[1:].decode()) if re.fullmatch(rb"x([0-9a-fA-F]{2})*", word) else None


def key_of(word):
    field = value_of(word)
    return field if field is not None and is_text(field) else None


def wanted_of(word):
    field = value_of(word)
    locale = rb"[0-9A-Za-z]{1,8}(-[0-9A-Za-z]{1,8})*"
    is_wanted = field is not None and field.count(b",") < 16 and re.fullmatch(locale + rb"(," + locale + rb")*", field)
    return field if is_wanted else None


COMMANDS = {
    b"get": [key_of, key_of],
    b"put": [key_of, key_of, value_of],
    b"del": [key_of, key_of],
    b"row": [key_of],
}
ASKS = {b"ask": [key_of, wanted_of]}


def line_of(forms, line):
    """A line's name and fields, or None for a bad line."""
    name, *words = line.split(b" ")
    readers = forms.get(name)
    if readers is None or len(readers) != len(words):
        return None
    fields = [read(word) for read, word in zip(readers, words)]
    return None if None in fields else (name, fields)


def reply(rows, name, fields):
    """What a command answers. It changes the map."""
    row = rows.get(fields[0])
    if name == b"row":
        pairs = [b" " + spelled(key) + b" " + spelled(row[key]) for key in sorted(row or {})]
        return b"none" if row is None else b"row" + b"".join(pairs)
    old = None if row is None else row.get(fields[1])
    if name == b"get":
        return b"none" if old is None else b"some " + spelled(old)
    if name == b"put":
        if not fits(rows, *fields):
            return b"toolarge"
        rows.setdefault(fields[0], {})[fields[1]] = fields[2]
        return b"new" if old is None else b"old " + spelled(old)
    if old is None:
        return b"none"
    del row[fields[1]]
    if not row:
        del rows[fields[0]]
    return b"old " + spelled(old)


def lines_of(text):
    lines = text.split(b"\n")
    return lines if lines[-1] else lines[:-1]


def answer(rows, key, wanted):
    """What is found for a key and a wanted text."""
    names = ["-".join(locale[:end]) for locale in (each.split("-") for each in wanted.decode().split(",")) for end in range(len(locale), 0, -1)]
    row = rows.get(key, {})
    found = [name.encode() for name in names + ["und"] if name.encode() in row]
    return b"some " + spelled(found[0]) + b" " + spelled(row[found[0]]) if found else b"none"


def answers(text, forms, tell):
    """What is written for an input whose lines have these forms, and its status; `tell` gives the lines that are due."""
    if len(text) > MOST_INPUT:
        return b"", 3
    lines = lines_of(text)
    image = value_of(lines[0]) if lines else None
    asked = [line_of(forms, line) for line in lines[1:]]
    if image is None or None in asked:
        return b"error line %d\n" % (1 if image is None else asked.index(None) + 2), 4
    try:
        rows = parsed(image)
    except Refused as cause:
        return b"error %s\n" % str(cause).encode(), 5
    return b"".join(line + b"\n" for line in tell(rows, asked)), 0


def edit(text):
    """What `zv edit` writes for an input, and its status."""

    def tell(rows, commands):
        replies = [reply(rows, *command) for command in commands]
        return replies + [b"image " + spelled(canonical(rows))]

    return answers(text, COMMANDS, tell)


def locale(text):
    """What `zv locale` writes for an input, and its status."""
    return answers(text, ASKS, lambda rows, asks: [answer(rows, *fields) for _, fields in asks])


def layers(text):
    """What `zv layers` writes for an input, and its status."""
    if len(text) > MOST_INPUT:
        return b"", 3
    images = [value_of(line) for line in lines_of(text)]
    bad = [number for number, image in enumerate(images, 1) if image is None or number > MOST_LAYERS]
    if bad or not images:
        return b"error line %d\n" % (bad[0] if bad else 1), 4
    rows = {}
    for number, image in enumerate(images, 1):
        try:
            over = parsed(image)
        except Refused as cause:
            return b"error layer %d %s\n" % (number, str(cause).encode()), 5
        for key, row in over.items():
            rows.setdefault(key, {}).update(row)
    return b"image " + spelled(canonical(rows)) + b"\n", 0


def make(count):
    """What `zv make` writes for a number of puts."""
    rows, x = {}, 7
    for _ in range(count):
        rows.setdefault(b"r%d" % (x % 64), {})[b"k%d" % x] = x.to_bytes(2, "little")
        x = (5 * x + 3) % 4096
    image = canonical(rows)
    pairs = sum(len(row) for row in rows.values())
    return b"rows %d pairs %d bytes %d sum %d\n" % (len(rows), pairs, len(image), sum(image))
