"""The transcript of a batch, which has the pages: behind the entries stands each page that a build cites, once, as a row.

docs/RULES.md has the form. What is read here is judged by it as far as the pages need, and each line that does not fit is told."""
from __future__ import annotations

import dataclasses
import pathlib
import re

from publishing.message import Stop
from publishing.transcript import Entry, entry_of

HEAD = b"dita transcript 1\n"
NUMBER = "(0|[1-9][0-9]{0,19})"
ENTRY = re.compile(f"entry {NUMBER} {NUMBER} {NUMBER} [a-z]+(?: [^ ]+)*")
ROW = re.compile(f"row {NUMBER} (page|contents) ([^ ]+) ([^ ]+) {NUMBER} {NUMBER}")
END = re.compile(f"end {NUMBER} {NUMBER} {NUMBER}")
PAGE = re.compile(f"page ([^ ]+) (row|bytes) {NUMBER}")
NEXT = re.compile(rb"\n(?!\|)")
COUNTS = {"text": 1, "names": 1, "built": 2}  # how many numbers of a reply tell the lines below
CUT_OFF = "it is cut off: its last line, which begins with `end`, is missing"


class Unread(Exception):
    """Why bytes are no whole transcript, or have no pages."""


@dataclasses.dataclass(frozen=True)
class Row:
    """A row line: which part of which build it keeps, and where its lines stand in the transcript."""

    part: str
    map: str
    val: str
    index: int
    start: int
    end: int


@dataclasses.dataclass(frozen=True)
class Page:
    """A page line of a build: the name, and the serial of the row with the bytes."""

    name: str
    serial: int


@dataclasses.dataclass
class Transcript:
    """A whole transcript: its bytes, its entries, its rows by their serials, and the three numbers of its end."""

    data: bytes
    entries: list[Entry] = dataclasses.field(default_factory=list)
    rows: dict[int, Row] = dataclasses.field(default_factory=dict)
    totals: tuple[int, ...] = ()

    def page_bytes(self, serial: int) -> bytes:
        """The bytes of a page: the lines of its row, each without its `|`."""
        row = self.rows[serial]
        return bytes_of(self.data[row.start:row.end])

    def built(self) -> list[Entry]:
        """The entries of the builds that are finished."""
        return [entry for entry in self.entries if entry.reply[0] == "built"]


def bytes_of(lines: bytes) -> bytes:
    """The bytes of a page: its lines, each without the `|` in front."""
    return lines[1:].replace(b"\n|", b"\n")


def is_name(name: str) -> bool:
    """Whether a text is a document name: such a name leads out of no folder."""
    segments_are_well = all(segment not in ("", ".", "..") for segment in name.split("/"))
    return segments_are_well and name != "-" and len(name.encode("utf-8")) <= 255 and min(name) > " " and "\x7f" not in name


def lines_end(data: bytes, start: int) -> int:
    """Where the lines end that begin with a `|`, if they begin at `start`."""
    if data[start:start + 1] != b"|":
        return start
    found = NEXT.search(data, start)
    return found.end() if found else len(data)


def wrong_below(entry: Entry) -> str | None:
    """What is wrong with the count of the lines below an entry, by its reply."""
    told = entry.reply[1:] if entry.reply[0] in COUNTS else []
    are_numbers = len(told) == COUNTS.get(entry.reply[0], 0) and all(re.fullmatch(NUMBER, word) for word in told)
    if are_numbers and sum(map(int, told)) == len(entry.below):
        return None
    return f"the reply `{' '.join(entry.reply)}` does not tell the {len(entry.below):,} lines below"


class Reader:
    """Reads a transcript, line by line; `at` is where the line stands that is read."""

    def __init__(self, data: bytes) -> None:
        self.made = Transcript(data)
        self.at = len(HEAD)

    def fault(self, sentence: str) -> Unread:
        return Unread(f"line {self.made.data.count(10, 0, self.at) + 1}: {sentence}")

    def text(self, start: int, end: int) -> str:
        try:
            return self.made.data[start:end].decode("utf-8")
        except UnicodeDecodeError:
            raise self.fault("this is not UTF-8") from None

    def whole(self) -> Transcript:
        """The transcript of all bytes."""
        while not self.made.totals:
            stop = self.made.data.find(b"\n", self.at)
            end = lines_end(self.made.data, stop + 1)
            if stop < 0 or (end == len(self.made.data) and not self.made.data.startswith(b"end ", self.at)):
                raise Unread(CUT_OFF)
            self.line(self.text(self.at, stop), stop + 1, end)
            self.at = end
        if self.at != len(self.made.data):
            raise self.fault("this stands behind the line `end`")
        if self.made.totals[0] != len(self.made.entries):
            raise Unread(f"its line `end` counts {self.made.totals[0]:,} entries, and {len(self.made.entries):,} stand there")
        return self.made

    def line(self, line: str, start: int, end: int) -> None:
        """Takes an entry, a row or the end, with the lines below from `start` to `end`."""
        count = self.made.data.count(10, start, end)
        if ENTRY.fullmatch(line) and not self.made.rows:
            self.entry(entry_of(line), start, end)
        elif found := ROW.fullmatch(line):
            self.row(int(found[1]), Row(found[2], found[3], found[4], int(found[5]), start, end), int(found[6]), count)
        elif (found := END.fullmatch(line)) and count == 0:
            self.made.totals = tuple(map(int, found.groups()))
        else:
            raise self.fault(f"`{line[:60]}` is no line of a transcript here")

    def entry(self, entry: Entry, start: int, end: int) -> None:
        entry.below.extend(line[1:] for line in self.text(start, end).split("\n")[:-1])
        if wrong := wrong_below(entry):
            raise self.fault(wrong)
        self.made.entries.append(entry)

    def row(self, serial: int, row: Row, told: int, count: int) -> None:
        if serial in self.made.rows:
            raise self.fault(f"row {serial} stands there twice")
        if told != count:
            raise self.fault(f"row {serial} tells {told:,} lines, and {count:,} stand there")
        self.made.rows[serial] = row


def read(data: bytes) -> Transcript:
    """The transcript that these bytes are; Unread says why they are none."""
    if data.startswith(b"script "):
        raise Unread(f"the desk read no script: {data.splitlines()[0][:60].decode('utf-8', 'replace')}")
    if not data.startswith(HEAD):
        raise Unread("it is no transcript: its first line is not `dita transcript 1`")
    return Reader(data).whole()


def page_lines(entry: Entry) -> list[Page]:
    """The pages of a finished build, each in a row."""
    pages: list[Page] = []
    for line in entry.below[:int(entry.reply[1])]:
        found = PAGE.fullmatch(line)
        if found is None:
            raise Unread(f"request {entry.number}: `{line[:60]}` is no line of a page")
        if found[2] == "bytes":
            raise Unread("it has no pages: the modes `clean` and `terms` put them into the folder that `--out` named")
        if not is_name(found[1]):
            raise Unread(f"request {entry.number}: `{found[1]}` is no name of a page: it could lead out of the folder")
        pages.append(Page(found[1], int(found[3])))
    return pages


def pages_of(transcript: Transcript, entry: Entry) -> list[Page]:
    """The pages of a finished build, each of which has its row."""
    pages = page_lines(entry)
    for page in pages:
        if page.serial not in transcript.rows:
            raise Unread(f"request {entry.number}: the page `{page.name}` is in row {page.serial}, which is not there")
    return pages


def entry_in(message: bytes) -> Entry:
    """The entry that a message of a session is."""
    try:
        line, *below = message.decode("utf-8").split("\n")
    except UnicodeDecodeError:
        raise Unread("this is not UTF-8") from None
    if ENTRY.fullmatch(line) is None or below[-1:] != [""] or not all(it.startswith("|") for it in below[:-1]):
        raise Unread(f"`{line[:60]}` begins no entry")
    entry = entry_of(line)
    entry.below.extend(it[1:] for it in below[:-1])
    if wrong := wrong_below(entry):
        raise Unread(wrong)
    return entry


def page_in(message: bytes, page: Page) -> bytes:
    """The bytes of a page, by the message of a session that is its row."""
    line, _, lines = message.partition(b"\n")
    found = ROW.fullmatch(line.decode("utf-8", "replace"))
    if found is None or int(found[1]) != page.serial:
        raise Unread(f"the row of the page `{page.name}` does not follow")
    count = lines.count(b"\n|") + 1 if lines else 0
    if count != int(found[6]) or (lines and (lines[:1] != b"|" or lines[-1:] != b"\n")):
        raise Unread(f"row {page.serial} tells {int(found[6]):,} lines, and others stand there")
    return bytes_of(lines)


def write_pages(transcript: Transcript, entry: Entry, folder: pathlib.Path, shown: str = "") -> int:
    """Writes the pages of a finished build below a folder, under their names, and counts them. Messages name a page behind `shown`."""
    pages = pages_of(transcript, entry)
    for page in pages:
        path = folder / page.name
        try:
            path.parent.mkdir(parents=True, exist_ok=True)
            with open(path, "xb") as file:
                file.write(transcript.page_bytes(page.serial))
        except OSError as error:
            raise Stop(f"a page could not be written: {shown}{page.name}: {error.strerror}") from None
    return len(pages)


def write_builds(transcript: Transcript, folder: pathlib.Path) -> int:
    """Writes the pages of all finished builds below a folder, where the mode `clean` puts them, and counts them."""
    return sum(write_pages(transcript, entry, folder / f"b{entry.number}", f"b{entry.number}/") for entry in transcript.built())
