"""What the desk answered: the replies to the requests of a script, and the faults of a build. The pages of a batch are read by `rows`."""
from __future__ import annotations

import dataclasses
from collections.abc import Iterator

ESCAPES = {"n": "\n", "t": "\t", "\\": "\\"}


@dataclasses.dataclass(frozen=True)
class Edit:
    """An edit of a script: its words behind the session, and the lines of its body."""

    words: list[str]
    body: list[str]

    @property
    def name(self) -> str:
        return self.words[-1]


@dataclasses.dataclass(frozen=True)
class Request:
    """A request: its words behind the session, and its edits: those of a group, or the one that it is."""

    words: list[str]
    edits: list[Edit]


@dataclasses.dataclass(frozen=True)
class Entry:
    """An entry: its place, its session, the number of its request, the words of its reply, and the lines below it without their `|`."""

    place: int
    session: int
    number: int
    reply: list[str]
    below: list[str]

    def faults(self) -> list[str]:
        """The fault lines of a build."""
        return self.below[int(self.reply[1]):] if self.reply[0] == "built" else []


@dataclasses.dataclass(frozen=True)
class Fault:
    """A line of a build's report."""

    name: str
    line: int
    code: str
    detail: str


def words_of(line: str) -> list[str]:
    return [word for word in line.split(" ") if word]


def edit_of(words: list[str], lines: Iterator[str]) -> Edit:
    """An edit; its body is what stands before the next line that is a single `.`."""
    return Edit(words, list(iter(lambda: next(lines), ".")) if words[0] in ("put", "putif") else [])


def edits_of(lines: Iterator[str]) -> Iterator[Edit]:
    """The edits of a group, up to its end."""
    for line in iter(lambda: next(lines), "end"):
        if line.strip(" \t") and not line.startswith("#"):
            yield edit_of(words_of(line), lines)


def requests_of(script: str) -> Iterator[Request]:
    """The requests of a script, in order."""
    lines = iter(script.split("\n"))
    for line in lines:
        if line.strip(" \t") and not line.startswith("#"):
            words = words_of(line)[1:]
            if words[0] == "group":
                yield Request(words, list(edits_of(lines)))
            else:
                yield Request(words, [edit_of(words, lines)] if words[0] in ("put", "putif", "remove") else [])


def entry_of(line: str) -> Entry:
    """The entry that a line `entry PLACE SESSION NUMBER REPLY` begins."""
    _, place, session, number, *reply = line.split(" ")
    return Entry(int(place), int(session), int(number), reply, [])


def entries_of(transcript: str) -> list[Entry]:
    """The entries of a transcript, also of one that is cut off."""
    entries: list[Entry] = []
    for line in transcript.split("\n"):
        if line.startswith(("row ", "end ")):
            break
        if line.startswith("entry "):
            entries.append(entry_of(line))
        elif line.startswith("|") and entries:
            entries[-1].below.append(line[1:])
    return entries


def unescaped(detail: str) -> str:
    parts = iter(detail.split("\\"))
    text = next(parts)
    for part in parts:
        text += ESCAPES.get(part[:1], "\\" + part[:1]) + part[1:] if part else "\\" + next(parts, "")
    return text


def fault_of(line: str) -> Fault:
    """What a fault line says."""
    where, _, rest = line.partition(" ")
    name, _, number = where.rpartition(":")
    code, _, detail = rest.partition(" ")
    return Fault(name, int(number), code, unescaped(detail))
