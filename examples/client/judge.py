"""Whether the answers that the clients heard are those of one desk.

What a request must be answered with, and what each page must be, comes from the mode `clean`, to which the same requests are given by one
session, in the order of the places that the clients were told. The places of the client that never reads are told to nobody: its requests
but the first change nothing, and any of them may stand at such a place."""
from __future__ import annotations

import pathlib
import re
import tempfile
from collections.abc import Iterator

import together
from client import CONNECTIONS, Heard, messages_to_come
from publishing import rows
from publishing.transcript import Entry, entry_of

SERVED = re.compile(rb"served ([0-9]+) ([0-9]+)\n")

# what each client that is no editor hears last
LAST = {"babbler": "script BadCommand 4\n", "stranger": "closed", "page": "status 403"}


def message_faults(name: str, heard: Heard) -> Iterator[str]:
    """Each request is answered once, in order, in one session, and a build shows its pages right behind."""
    messages = iter(heard.messages)
    entries: list[Entry] = []
    for message in messages:
        if not message.startswith("entry "):
            if message != LAST.get(name) or message is not heard.messages[-1]:
                yield f"{name}: `{message[:40]}` comes out of turn"
            continue
        entries.append(entry_of(message.split("\n", 1)[0]))
        pages = [next(messages, "") for _ in range(messages_to_come(message))]
        if [row.split(" ")[1] for row in pages if row.startswith("row ")] != re.findall(r"^\|page [^ ]+ row ([0-9]+)$", message, re.MULTILINE):
            yield f"{name}: request {entries[-1].number}: the rows that follow are not those of its pages"
    if name in LAST and heard.messages[-1] != LAST[name]:
        yield f"{name} hears `{heard.messages[-1][:40]}`"
    if [entry.number for entry in entries] != list(range(1, len(entries) + 1)):
        yield f"{name}: the requests are not numbered in order"
    if name != "deaf" and len(entries) != len(heard.asked):
        yield f"{name}: {len(entries)} of {len(heard.asked)} requests are answered"
    if len({entry.session for entry in entries}) > 1:
        yield f"{name} has more than one session"
    if [entry.place for entry in entries] != sorted(entry.place for entry in entries):
        yield f"{name}: the places are not in order"


def told(heard: dict[str, Heard]) -> dict[int, tuple[Entry, list[str], str]]:
    """At each place that was told: the entry, what was asked, and the message."""
    found = {}
    for one in heard.values():
        for asked, message in zip(one.asked, one.entries):
            entry = entry_of(message.split("\n", 1)[0])
            if entry.place in found:
                raise rows.Unread(f"place {entry.place} is told twice")
            found[entry.place] = (entry, asked, message)
    return found


def row_texts(heard: dict[str, Heard]) -> dict[int, str]:
    """Each row that came. A row has the same lines wherever it comes."""
    found: dict[int, str] = {}
    for one in heard.values():
        for message in one.messages:
            if message.startswith("row "):
                serial = int(message.split(" ")[1])
                if found.setdefault(serial, message) != message:
                    raise rows.Unread(f"row {serial} comes with other lines")
    return found


def numbered(place: int, message: str) -> str:
    """An entry's message, with the number that its request has among all."""
    return re.sub(r"^entry ([0-9]+) ([0-9]+) [0-9]+ ", rf"entry \1 \2 {place + 1} ", message)


def merged(heard: dict[str, Heard]) -> rows.Transcript:
    """One transcript of all that was told."""
    entries = sorted(told(heard).items())
    lines = [numbered(place, message) for place, (_, _, message) in entries]
    texts = [text for _, text in sorted(row_texts(heard).items())]
    return rows.read("".join(["dita transcript 1\n", *lines, *texts, f"end {len(lines)} 0 0\n"]).encode("utf-8"))


def requests_at(heard: dict[str, Heard], count: int) -> together.Requests:
    """The request at each place: those that were told, and those of the client that never reads, which come in their order."""
    known, silent = told(heard), iter(heard["deaf"].asked[len(heard["deaf"].entries):])
    return [(1, known[place][1] if place in known else next(silent, ["names"])) for place in range(count)]


def session_faults(heard: dict[str, Heard]) -> Iterator[str]:
    sessions = [entry_of(one.entries[0].split("\n", 1)[0]).session for one in heard.values() if one.entries]
    if len(set(sessions)) != len(sessions) or not all(1 <= session <= CONNECTIONS for session in sessions):
        yield f"the sessions are {sessions}"


def answer_faults(words: list[str], heard: dict[str, Heard], count: int) -> Iterator[str]:
    """Each answer is the one of the mode `clean` at its place."""
    transcript = merged(heard)
    if transcript.entries and transcript.entries[-1].place >= count:
        yield f"place {transcript.entries[-1].place} is told, and the history has {count} entries"
        return
    requests = requests_at(heard, count)
    places = {entry.place for entry in transcript.entries}
    with tempfile.TemporaryDirectory() as folder:
        every = [Entry(place, 1, place + 1, [], []) for place in range(count)]
        clean = together.clean_run(words, requests, every, pathlib.Path(folder))
        known = [entry for entry in clean if entry.place in places]
        yield from together.reply_faults(transcript, requests, known, pathlib.Path(folder))


def faults(words: list[str], heard: dict[str, Heard], status: int, output: bytes) -> list[str]:
    """What is wrong with what the clients heard, and with the status and the output of the program that served them."""
    served = SERVED.fullmatch(output)
    if status != 0 or served is None or int(served[1]) != CONNECTIONS:
        return [f"status {status} and the output {output[:60]!r}"]
    found = [fault for name, one in heard.items() for fault in message_faults(name, one)]
    found = found or list(session_faults(heard))
    try:
        return found or list(answer_faults(words, heard, int(served[2])))
    except rows.Unread as fault:
        return [str(fault)]


def changed(heard: dict[str, Heard], name: str, index: int, message: str | None) -> dict[str, Heard]:
    """The same, with another message or without it."""
    one = heard[name]
    messages = [*one.messages[:index], *([] if message is None else [message]), *one.messages[index + 1:]]
    return {**heard, name: Heard(one.asked, messages)}


def mistakes(heard: dict[str, Heard]) -> Iterator[tuple[str, dict[str, Heard]]]:
    """Wrong answers, each with what is wrong."""
    one = heard["editor 0"]
    page = next(index for index, message in enumerate(one.messages) if message.startswith("row "))
    first = one.messages[0]
    place = int(first.split(" ")[1])
    yield "a page without its row", changed(heard, "editor 0", page, None)
    yield "another sentence in a page", changed(heard, "editor 0", page, one.messages[page].replace("|<!DOCTYPE", "|<!doctype"))
    yield "an answer that is missing", changed(heard, "editor 0", len(one.messages) - 1, None)
    yield "an answer that comes twice", changed(heard, "editor 0", 0, first + first)
    yield "another version", changed(heard, "editor 0", 0, re.sub(r"stored [0-9]+", f"stored {place + 2}", first))
    yield "an answer of another session", changed(heard, "editor 0", 0, re.sub(r"^(entry [0-9]+) [0-9]+", r"\1 99", first))
    yield "a fault at another line", changed(heard, "babbler", len(heard["babbler"].messages) - 1, "script BadCommand 3\n")


def mistakes_passed(words: list[str], heard: dict[str, Heard], status: int, output: bytes) -> Iterator[str]:
    """The wrong answers that the check does not refuse."""
    for name, wrong in mistakes(heard):
        if not faults(words, wrong, status, output):
            yield f"the check passes {name}"
