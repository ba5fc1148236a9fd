#!/usr/bin/env python3
"""Writes a table of the names of the world's territories, in each language that this machine has them in.

    examples/territories.py [FOLDER]      a language, a territory's code and its name, with tabs between them

The names are those of ISO 3166-1 as the project iso-codes translates them: some 30,000 lines of 158 languages
in version 4.15. FOLDER is where they are installed, /usr/share where none is given. A language that has no name
for a territory has no line for it.

    examples/territories.py > territories.tsv
    examples/table.py put territories.tsv | examples/table.py get ja CH zu ZA > input
    ./zv edit < input | examples/table.py show input
"""
import gettext
import json
import os
import pathlib
import sys

CODES = "iso-codes/json/iso_3166-1.json"
NAMES = "locale/*/LC_MESSAGES/iso_3166-1.mo"
WHERE = """\
territories: there are no names of territories in {}
They are in the package `iso-codes` of Debian, Ubuntu, Fedora, Arch and others. On Debian and Ubuntu:
    apt-get install iso-codes"""


class NoName(gettext.NullTranslations):
    """Says that a text has no translation, where the module gettext hands the text back."""

    def gettext(self, message):
        return ""


def territories(folder):
    """The code of each territory, and the name that is translated."""
    with open(folder / CODES, encoding="utf-8") as file:
        for territory in json.load(file)["3166-1"]:
            yield territory["alpha_2"], territory.get("common_name", territory["name"])


def names(path, named):
    """The code and the name of each territory in the language of a file of translations."""
    with open(path, "rb") as file:
        translations = gettext.GNUTranslations(file)
    translations.add_fallback(NoName())
    for code, name in named:
        translated = translations.gettext(name)
        if translated:
            yield code, translated


def lines(folder):
    """The lines of the table, and an error where there are none."""
    paths = sorted(folder.glob(NAMES))
    if not paths:
        raise FileNotFoundError
    named = sorted(territories(folder))
    for path in paths:
        language = path.relative_to(folder).parts[1]
        for code, name in names(path, named):
            yield f"{language}\t{code}\t{name}"


def main():
    if len(sys.argv) > 2 or sys.argv[1:] in (["-h"], ["--help"]):
        sys.exit(__doc__)
    folder = pathlib.Path(*(sys.argv[1:] or ["/usr/share"]))
    try:
        table = list(lines(folder))
    except FileNotFoundError:
        sys.exit(WHERE.format(folder))
    try:
        sys.stdout.reconfigure(encoding="utf-8")
        print(*table, sep="\n", flush=True)
    except OSError as error:
        # What is left to be written would be tried again at the end.
        os.dup2(os.open(os.devnull, os.O_WRONLY), 1)
        sys.exit(f"territories: {error}")


if __name__ == "__main__":
    main()
