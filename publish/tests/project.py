#!/usr/bin/env python3
"""Makes a folder of documents as large as one asks: `publish/tests/project.py FOLDER TOPICS`.

Each topic has a title, a short description, a list of steps, a table, a picture, links, a key and a content reference; twenty
topics stand in a map of their own, which the top map includes."""
from __future__ import annotations

import pathlib
import sys

IN_MAP = 20
HEAD = '<?xml version="1.0" encoding="UTF-8"?>\n'
SHARED = HEAD + """<topic id="shared"><title>Shared</title><body>
<note id="hot" type="warning">The plate is <b>hot</b>: wait for five minutes.</note>
</body></topic>
"""
PICTURE = '<svg xmlns="http://www.w3.org/2000/svg" width="40" height="40"><rect width="40" height="40"/></svg>\n'
WORDS = "Some words of a paragraph that says what a reader needs to know before the work begins, and no more than that. "


def topic(number: int, count: int) -> str:
    """A task with links to the topics before and behind it."""
    steps = "".join(f"<step><cmd>Turn the dial to <uicontrol>{step}</uicontrol>.</cmd><info>The light is on.</info></step>\n" for step in range(5))
    rows = "".join(f"<row><entry>{row}</entry><entry>Value of <codeph>row-{row}</codeph></entry></row>\n" for row in range(5))
    before, behind = (number - 1) % count, (number + 1) % count
    return f"""{HEAD}<task id="t{number}" xml:lang="en">
<title>Task {number}</title>
<shortdesc>What task {number} of <keyword keyref="product"/> is for.</shortdesc>
<taskbody>
<context><p>{WORDS * 2}</p><note conref="../shared.dita#shared/hot"/>
<p id="p">{WORDS}See <xref href="t{before}.dita#t{before}/p">the task before</xref> and <xref href="t{behind}.dita"/>.</p></context>
<steps>
{steps}</steps>
<result><fig id="f"><title>The plate</title><image href="../pictures/plate%20{number % 10}.svg"><alt>The plate</alt></image></fig>
<table><tgroup cols="2"><colspec colname="a"/><colspec colname="b"/><tbody>
{rows}</tbody></tgroup></table></result>
</taskbody>
</task>
"""


def submap(numbers: range) -> str:
    references = "".join(f'<topicref href="topics/t{number}.dita"/>\n' for number in numbers)
    return f'{HEAD}<map><title>Part {numbers.start // IN_MAP}</title>\n<topicgroup collection-type="sequence">\n{references}</topicgroup>\n</map>\n'


def make(folder: pathlib.Path, count: int) -> None:
    """Makes the project `project.ditamap` with so many topics."""
    for name in ("topics", "pictures"):
        (folder / name).mkdir(parents=True, exist_ok=True)
    parts = [range(start, min(start + IN_MAP, count)) for start in range(0, count, IN_MAP)]
    files = {"shared.dita": SHARED}
    files |= {f"pictures/plate {number}.svg": PICTURE for number in range(10)}
    files |= {f"topics/t{number}.dita": topic(number, count) for number in range(count)}
    files |= {f"part{place}.ditamap": submap(numbers) for place, numbers in enumerate(parts)}
    includes = "".join(f'<topichead navtitle="Part {place}"><mapref href="part{place}.ditamap"/></topichead>\n' for place in range(len(parts)))
    key = '<keydef keys="product"><topicmeta><keywords><keyword>Heron</keyword></keywords></topicmeta></keydef>'
    files["project.ditamap"] = f"{HEAD}<map><title>Project</title>\n{key}\n{includes}</map>\n"
    for name, text in files.items():
        (folder / name).write_text(text, encoding="utf-8")


if __name__ == "__main__":
    if len(sys.argv) != 3:
        sys.exit(__doc__)
    make(pathlib.Path(sys.argv[1]), int(sys.argv[2]))
