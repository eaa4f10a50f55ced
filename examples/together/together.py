"""Whether a transcript of a batch is right for a script, as docs/RULES.md says of faithful transcripts.

Nothing here is taken from the run that is judged: what each request must be answered with, and what each page must be, comes from the
mode `clean`, to which the same requests are given by one session, in the order that the transcript tells."""
from __future__ import annotations

import pathlib
import subprocess
import sys
from collections.abc import Iterator

sys.path.insert(0, str(pathlib.Path(__file__).resolve().parent.parent.parent / "publish"))

from publishing import rows  # noqa: E402  (the line above makes it importable)
from publishing.transcript import Entry, entries_of  # noqa: E402

Requests = list[tuple[int, list[str]]]


def body_of(lines: Iterator[str]) -> list[str]:
    return [*iter(lambda: next(lines), "."), "."]


def requests_of(script: str) -> Requests:
    """The requests of a script, in order: the session, and the lines, of which the first is without its session."""
    found, lines = [], iter(script.split("\n"))
    for line in lines:
        if not line.strip(" \t") or line.startswith("#"):
            continue
        session, _, words = line.strip(" ").partition(" ")
        taken = [words]
        if words == "group":
            for edit in iter(lambda: next(lines), "end"):
                taken += [edit, *(body_of(lines) if edit.startswith("put") else [])]
            taken.append("end")
        elif words.startswith("put"):
            taken += body_of(lines)
        found.append((int(session), taken))
    return found


def order_faults(requests: Requests, entries: list[Entry]) -> Iterator[str]:
    """Each request stands once, with its session, and the requests of a session in their order."""
    if [entry.place for entry in entries] != list(range(len(requests))):
        yield "the places are not 0, 1, 2 and so on, one for each request"
    if sorted(entry.number for entry in entries) != list(range(1, len(requests) + 1)):
        yield "not each request stands there once"
        return
    for entry in entries:
        if entry.session != requests[entry.number - 1][0]:
            yield f"request {entry.number} is not one of session {entry.session}"
    for session in {session for session, _ in requests}:
        numbers = [entry.number for entry in entries if entry.session == session]
        if numbers != sorted(numbers):
            yield f"the requests of session {session} stand in the order {numbers}"


def clean_run(program: list[str], requests: Requests, entries: list[Entry], folder: pathlib.Path) -> list[Entry]:
    """The entries of the mode `clean` over these requests in this order; the pages of the entry at place P are in `folder`/b(P + 1)."""
    script = "".join("1 " + "\n".join([*requests[entry.number - 1][1], ""]) for entry in entries)
    ended = subprocess.run([*program, "clean", "--out", str(folder)], input=script.encode("utf-8"), stdout=subprocess.PIPE, check=True)
    return entries_of(ended.stdout.decode("utf-8"))


def page_faults(transcript: rows.Transcript, entry: Entry, asked: list[str], names: list[str], folder: pathlib.Path) -> Iterator[str]:
    """The build has these pages; each is in a row of this part of this map, with the bytes of the file of that name."""
    pages = rows.pages_of(transcript, entry)
    if [page.name for page in pages] != names:
        yield f"request {entry.number} has not the pages {', '.join(names)}"
        return
    for index, page in enumerate(pages):
        row, is_contents = transcript.rows[page.serial], index == len(pages) - 1
        part = ("contents", 0) if is_contents else ("page", index)
        if (row.part, row.index, row.map, row.val) != (*part, *asked):
            yield f"request {entry.number}, page {page.name}: row {page.serial} is of another part"
        if transcript.page_bytes(page.serial) != (folder / page.name).read_bytes():
            yield f"request {entry.number}, page {page.name}: row {page.serial} has not the bytes of this page at this place"


def reply_faults(transcript: rows.Transcript, requests: Requests, clean: list[Entry], folder: pathlib.Path) -> Iterator[str]:
    """Each reply is that of the mode `clean` at this place, and each build shows its pages and faults."""
    for entry, other in zip(transcript.entries, clean, strict=True):
        if entry.reply != other.reply:
            yield f"request {entry.number} is answered {' '.join(entry.reply)}, not {' '.join(other.reply)}"
        elif entry.reply[0] != "built":
            if entry.below != other.below:
                yield f"request {entry.number} has other lines below"
        else:
            asked = [*requests[entry.number - 1][1][0].split()[1:], "-"][:2]
            count = int(other.reply[1])
            names = [line.split(" ")[1] for line in other.below[:count]]
            yield from page_faults(transcript, entry, asked, names, folder / f"b{other.number}")
            if entry.faults() != other.faults():
                yield f"request {entry.number} has not the faults {other.faults()}"


def repeats(requests: Requests, entries: list[Entry]) -> Iterator[tuple[Entry, Entry]]:
    """A build, and the next one of the same map if it repeats it: the session is the same, no other one builds this map, and no edit that
    was done stands between."""
    builds = {(words[0], session) for session, words in requests if words[0].startswith("build ")}
    last: dict[str, Entry] = {}
    for entry in entries:
        words = requests[entry.number - 1][1][0]
        if entry.reply[0] in ("stored", "removed", "grouped"):
            last.clear()
        elif words.startswith("build "):
            if words in last and [words for words, _ in builds].count(words) == 1:
                yield last[words], entry
            last[words] = entry


def row_faults(transcript: rows.Transcript, requests: Requests) -> Iterator[str]:
    """Each row is cited, builds that repeat others cite the same rows, and the end counts them."""
    cited = {page.serial for entry in transcript.built() for page in rows.pages_of(transcript, entry)}
    for serial in transcript.rows.keys() - cited:
        yield f"row {serial} is cited by no build"
    if list(transcript.rows) != sorted(transcript.rows):
        yield "the rows do not stand in the order of their serials"
    again = list(repeats(requests, transcript.entries))
    for first, second in again:
        if first.below != second.below:
            yield f"request {second.number} repeats request {first.number}, and cites other rows"
    builds = [entry for entry in transcript.entries if requests[entry.number - 1][1][0].startswith("build ")]
    parts = sum(int(entry.reply[1]) + 1 if entry.reply[0] == "built" else 1 for entry in builds
                if entry.number not in [second.number for _, second in again])
    _, made, dropped = transcript.totals
    if dropped != 0 or not len(transcript.rows) <= made <= parts:
        yield (f"the end tells {made} parts made and {dropped} dropped: {len(transcript.rows)} rows are cited, and the builds have "
               f"{parts} parts")


def faults(program: list[str], script: str, data: bytes, folder: pathlib.Path) -> list[str]:
    """What is wrong with a transcript of this script. The pages of the mode `clean` of the program are put into the folder."""
    requests = requests_of(script)
    try:
        transcript = rows.read(data)
        if found := list(order_faults(requests, transcript.entries)):
            return found
        clean = clean_run(program, requests, transcript.entries, folder)
        return [*reply_faults(transcript, requests, clean, folder), *row_faults(transcript, requests)]
    except rows.Unread as fault:
        return [str(fault)]
