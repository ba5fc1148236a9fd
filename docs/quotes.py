#!/usr/bin/env python3
"""Checks README.md and docs/*.md against the files that they quote and the crates whose calls and clauses they name.

A block that follows the line `<!-- from PATH -->` is a quote of that file. Each of its paragraphs (the
lines between blank lines, or between lines `...`) must stand in the file, line for line and in order.
A block of Rattle (```rust, ```antt) without such a line is an error.

Each call and clause in the tables of docs/CONTRACTS.md must stand in the crate of its section, each in the README's table
of clauses in the file that the row links to, each definition of docs/DEFINITIONS.md in the files of specs/ that its row
names, and each law of docs/CALLING.md in the files of proofs/ and as a function of the crate. The status is 1 where
something differs.
"""
import pathlib
import re
import sys

TOP = pathlib.Path(__file__).resolve().parent.parent
BLOCK = re.compile(r"(?:^<!-- from (?P<path>\S+) -->\n)?^```(?P<kind>\w*)\n(?P<text>.*?)^```$", re.M | re.S)
CODE = re.compile(r"`([^`]+)`")
LINK = re.compile(r"\[([^]]*)\]\(([^)]*)\)")


def paragraphs(text):
    """The paragraphs of a quote: a line `...` ends one as a blank line does."""
    pieces = re.split(r"\n(?:\s*(?:\.\.\.)?\s*\n)+", "\n" + text + "\n")
    return [piece.strip("\n") for piece in pieces if piece.strip()]


def wrong_quotes(page):
    text = page.read_text()
    for block in BLOCK.finditer(text):
        line = text.count("\n", 0, block.start()) + 1
        where = f"{page.relative_to(TOP)}:{line}"
        if block["path"] is None:
            if block["kind"] in ("rust", "antt"):
                yield f"{where}: a block of {block['kind']} names no file"
            continue
        source = TOP / block["path"]
        if not source.is_file():
            yield f"{where}: there is no {block['path']}"
            continue
        rest = source.read_text()
        for paragraph in paragraphs(block["text"]):
            place = ("\n" + rest).find("\n" + paragraph + "\n")
            if place < 0:
                yield f"{where}: not in {block['path']}: {paragraph.splitlines()[0]}"
                break
            rest = rest[place + len(paragraph):]


def contracts(text, call):
    """The clauses of the functions of a name, and what traits say; None where the name isn't there."""
    *owners, name = ("default" if call == "Default" else call).split("::")
    functions = re.findall(rf"\bfn {name}\b.*?(?=\bfn \w|\Z)", text, re.S)
    if not functions and (name[0].isupper() or re.search(rf"\bmod {name};", text)):
        owners, functions = [*owners, name], [text]
    if not functions or not all(re.search(rf"\b{owner}\b", text) for owner in owners):
        return None
    clauses = re.findall(r"\b(?:requires|ensures) (\w+) \{", "".join(functions))
    return {*clauses, *re.findall(r"\bghost (\w+) ?[:=]", text)}


def wrong_names(where, text, calls, clauses):
    found = set()
    for call in calls:
        named = contracts(text, call)
        if named is None:
            yield f"{where}: there is no {call}"
        found |= named or set()
    yield from (f"{where}: no clause {clause} of {', '.join(calls)}" for clause in clauses if clause not in found)


def rows(page):
    """The rows of a page's tables, with the page's section and where each stands."""
    section = ""
    for number, line in enumerate((TOP / page).read_text().splitlines(), 1):
        section = line if line.startswith("## ") else section
        if line.startswith("| "):
            yield section, [cell.strip() for cell in line.strip("|").split("|")], f"{page}:{number}"


def wrong_contracts():
    calls = []
    for section, (first, second, _), where in rows("docs/CONTRACTS.md"):
        sources = sorted(TOP.glob(f"crates/{section[3:].partition(':')[0]}/src/**/*.rt"))
        calls = CODE.findall(first) or calls
        if first != "call":
            text = "\n".join(source.read_text() for source in sources)
            yield from wrong_names(where, text, calls, CODE.findall(second))


def wrong_guarantees():
    for section, cells, where in rows("README.md"):
        end = 0
        for link in LINK.finditer(cells[1]) if section == "## What is guaranteed" else ():
            clauses, end = CODE.findall(cells[1][end:link.start()]), link.end()
            yield from wrong_names(where, (TOP / link[2]).read_text(), CODE.findall(link[1]), clauses)


def named_files(section, cell):
    """The crate and the name of each file that a cell names: `zv_fixed, Vectors; zv_owned, Owned` or `Fits, Laws`."""
    crate = re.search(r"zv_\w+", section)[0]
    for word in re.findall(r"\w+", re.sub(r"`[^`]*`|\bof\b|\band\b", " ", cell)):
        if word.startswith("zv_"):
            crate = word
        else:
            yield crate, word


def wrong_definitions():
    for section, cells, where in rows("docs/DEFINITIONS.md"):
        if cells[0] == "definition":
            continue
        paths = [TOP / f"crates/{crate}/specs/{name}.antt" for crate, name in named_files(section, cells[1])]
        yield from (f"{where}: there is no {path.relative_to(TOP)}" for path in paths if not path.is_file())
        # A definition may also be one of the crate's code, as `Row` of a map is a record of specs/.
        text = "\n".join(path.read_text() for path in paths if path.is_file())
        for word in CODE.findall(cells[0]):
            if not re.search(rf"\bpub (?:record |data )?{re.escape(word.split()[0])}\b", text):
                yield f"{where}: no definition {word.split()[0]} in {cells[1]}"


def wrong_laws():
    for section, cells, where in rows("docs/CALLING.md"):
        if section != "## Laws to cite" or cells[0] == "law":
            continue
        crate = re.match(r"zv_\w+", cells[1])
        if crate is None:
            continue
        for owner, name in named_files(cells[1], cells[1]):
            if not any((TOP / f"crates/{owner}/{folder}/{name}.antt").is_file() for folder in ("proofs", "specs")):
                yield f"{where}: {owner} has no {name}"
        text = "\n".join(it.read_text() for it in sorted(TOP.glob(f"crates/{crate[0]}/src/**/*.rt")))
        for call in CODE.findall(cells[2]):
            if not re.search(rf"\bfn {call.split('::')[-1]}\b", text):
                yield f"{where}: there is no {call}"


def main():
    pages = [TOP / "README.md", *sorted(TOP.glob("docs/*.md"))]
    found = [fault for page in pages for fault in wrong_quotes(page)]
    found += [*wrong_contracts(), *wrong_guarantees(), *wrong_definitions(), *wrong_laws()]
    print(*found, sep="\n", end="\n" if found else "")
    return 1 if found else 0


if __name__ == "__main__":
    sys.exit(main())
