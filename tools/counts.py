#!/usr/bin/env python3
"""Prints the rows of the table in docs/TESTING.md that counts functions, tests, must-fail edits and stored runs of each crate; with
`--write` it puts them there. A function counts where it is written: methods, those of traits and private ones too, but for tests."""
import pathlib
import re
import sys

TOP = pathlib.Path(__file__).resolve().parent.parent
TABLE = TOP / "docs" / "TESTING.md"
HEAD = "| crate | functions | tests | must-fail edits | stored runs |\n|---|---|---|---|---|\n"
FUNCTION = re.compile(r"^ *(?:pub(?:\([a-z]+\))? )?(?:const )?(?:unsafe )?fn \w", re.M)
TEST = re.compile(r"^ *#\[test\]\n", re.M)


def crates():
    """The names of the crates, in the order of crates.txt."""
    lines = (TOP / "crates.txt").read_text(encoding="utf-8").splitlines()
    return [line.split(":")[0].split()[0] for line in lines if line.split("#")[0].strip()]


def counts(name):
    """How many functions, tests, edits and stored runs a crate has."""
    folder = TOP / "crates" / name
    texts = [path.read_text(encoding="utf-8") for path in sorted((folder / "src").rglob("*.rt"))]
    tests = sum(len(TEST.findall(text)) for text in texts)
    functions = sum(len(FUNCTION.findall(text)) for text in texts) - tests
    return functions, tests, len(list((folder / "must-fail").glob("*.edit"))), int((folder / "src" / "main.rt").is_file())


def row(name, numbers):
    return f"| {name} | " + " | ".join(str(it) if it or place == 0 else "" for place, it in enumerate(numbers)) + " |\n"


def table():
    """The table as it must stand. A crate without functions has no row."""
    found = {name: counts(name) for name in crates()}
    rows = [row(f"`{name}`", numbers) for name, numbers in found.items() if any(numbers)]
    return HEAD + "".join(rows) + row("all", [sum(column) for column in zip(*found.values())])


def stands():
    """The table that stands in the document, and the text around it."""
    text = TABLE.read_text(encoding="utf-8")
    before, behind = text.split(HEAD, 1)
    rows = re.match(r"(?:\|.*\n)*", behind)[0]
    return before, HEAD + rows, behind[len(rows):]


def main():
    if sys.argv[1:] == ["--write"]:
        before, _, behind = stands()
        TABLE.write_text(before + table() + behind, encoding="utf-8")
    else:
        print(table(), end="")


if __name__ == "__main__":
    main()
