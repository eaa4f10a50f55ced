"""The steps of a publication one by one, for scripts of your own: `xml-to-script` and `faults`."""
from __future__ import annotations

import os
import pathlib
import sys
from collections.abc import Iterator, Sequence

from publishing import closure, names, script
from publishing.document import place_in
from publishing.faults import shown
from publishing.message import Message
from publishing.sentences import REFUSALS, STOPS, sentence_of
from publishing.transcript import Edit, Request, entries_of, fault_of, requests_of

TO_SCRIPT = """Makes a script of the documents that a map reaches, which stores them all and builds the map.

    xml-to-script FOLDER MAP [DITAVAL] > script

A file that can't be read is told with its line and column, and is left out; the status is then 1, and 2 if there is no script."""

FAULTS = """Tells the faults of a transcript to a writer: the file, the line and the column of the XML source, and a sentence.

    faults FOLDER SCRIPT TRANSCRIPT

SCRIPT is what `xml-to-script` made of FOLDER, TRANSCRIPT what the desk answered to it. docs/FAULTS.md says more of each fault."""


def to_script(words: Sequence[str]) -> int:
    """The command `xml-to-script`."""
    if len(words) not in (2, 3) or words[0].startswith("-"):
        print(TO_SCRIPT, file=sys.stderr)
        return 2
    sources = closure.Sources(pathlib.Path(words[0]))
    roots = [names.encoded(os.path.normpath(word)) for word in words[1:]]
    closure.reach(sources, roots)
    for message in sorted(sources.unread.values()):
        print(message, file=sys.stderr)
    missing = [name for name in roots if name not in sources.documents]
    for name in missing:
        print(f"{sources.place(name)}: there is no such document", file=sys.stderr)
    if missing:
        return 2
    sys.stdout.buffer.write(script.script_of(script.in_order(sources.documents.values()), roots))
    return 1 if sources.unread else 0


class Told:
    """The faults of a transcript, by the bodies of the script that it answers."""

    def __init__(self, folder: str) -> None:
        self.folder, self.bodies = folder, {}

    def message(self, name: str, body: list[str], line: int, sentence: str, code: str) -> Message:
        place = place_in(body, line)
        where = "" if any(place) else f"line {line} of its PYX: " if line else ""
        return Message(names.shown(os.path.join(self.folder, names.decoded(name))), *place, where + sentence, code)

    def refused(self, edit: Edit, refusal: list[str]) -> Iterator[Message]:
        """Why an edit was refused, or nothing if that is an answer that its writer asked for."""
        if refusal[0] == "refused":
            sentence = REFUSALS.get(refusal[1], "the document is left out")
            yield self.message(edit.name, edit.body, int(refusal[2]), sentence, refusal[1])
        elif refusal[0] == "toomanynames":
            yield self.message(edit.name, [], 0, "10,000 documents are stored already: this one is not", refusal[0])

    def stopped(self, request: Request, number: int, refusal: list[str]) -> Iterator[Message]:
        """Why no edit of a group was done."""
        edit = request.edits[number - 1]
        yield from self.refused(edit, refusal)
        sentence = f"edit {number} of its group is refused, so none of its {len(request.edits)} edits is done"
        yield self.message(edit.name, [], 0, sentence, " ".join(refusal))

    def store(self, edit: Edit) -> None:
        self.bodies.pop(edit.name, None)
        if edit.words[0] != "remove":
            self.bodies[edit.name] = edit.body

    def all(self, script_text: str, transcript: str) -> Iterator[Message]:
        """A message for each document that is not stored, each group and build that stopped, and each fault of a build."""
        for request, entry in zip(requests_of(script_text), entries_of(transcript)):
            reply = entry.reply
            if reply[0] in ("stored", "removed", "grouped"):
                for edit in request.edits:
                    self.store(edit)
            elif reply[0] in ("refused", "toomanynames"):
                yield from self.refused(request.edits[0], reply)
            elif reply[0] == "stopped":
                yield from self.stopped(request, int(reply[1]), reply[2:])
            elif reply[0] in STOPS:
                yield Message(self.folder, 0, 0, STOPS[reply[0]].format(" ".join(request.words[1:])), reply[0])
            for line in entry.faults():
                fault = fault_of(line)
                sentence = sentence_of(fault.code, shown(fault))
                yield self.message(fault.name, self.bodies.get(fault.name, []), fault.line, sentence, fault.code)


def faults(words: Sequence[str]) -> int:
    """The command `faults`."""
    if len(words) != 3:
        print(FAULTS, file=sys.stderr)
        return 2
    try:
        script_text, transcript = (pathlib.Path(word).read_bytes().decode("utf-8") for word in words[1:])
    except OSError as error:
        print(f"{error.filename}: {error.strerror}", file=sys.stderr)
        return 2
    if transcript.startswith("script "):
        print(f"{words[1]}: the desk reads no script there: {transcript.strip()}", file=sys.stderr)
        return 2
    for message in Told(words[0]).all(script_text, transcript):
        print(message)
    return 0
