"""A session with a desk: documents are put and removed, maps are built. docs/RULES.md has the form of requests and answers.

The desk has nobody else, so what it has stored is known by its answers: an answer that does not fit is a fault of the desk."""
from __future__ import annotations

import dataclasses
from collections.abc import Callable, Iterable, Iterator, Sequence

from publishing import rows
from publishing.document import Document
from publishing.script import in_order
from publishing.server import Server
from publishing.transcript import Entry
from publishing.websocket import Broken

GROUP_EDITS = 1_000
GROUP_BYTES = 4 << 20
MESSAGE_BYTES = 1 << 20  # the desk takes 8 MiB at once


class Ended(Exception):
    """Why a session can't go on, though another desk could do what was asked."""


class Full(Ended):
    """The history of the desk has no room for more."""

    def __init__(self) -> None:
        super().__init__("the history of the desk is full")


@dataclasses.dataclass(frozen=True)
class Edit:
    """A document that is put, or removed if it is none, where a version of its name stands."""

    name: str
    document: Document | None
    version: int

    def text(self) -> bytes:
        """The edit as lines of a request."""
        if self.document is None:
            return f"remove {self.name}\n".encode("utf-8")
        return f"putif {self.version} {self.name}\n{self.document.text()}\n.\n".encode("utf-8")


@dataclasses.dataclass(frozen=True)
class Built:
    """What a build gave: its entry, its pages, and each page's row as it came."""

    entry: Entry
    pages: list[rows.Page]
    rows: list[bytes]


def in_groups(edits: Iterable[tuple[Edit, bytes]]) -> Iterator[list[tuple[Edit, bytes]]]:
    """Edits with their texts, as many in a row as one group takes."""
    group: list[tuple[Edit, bytes]] = []
    size = 0
    for edit, text in edits:
        if group and (len(group) == GROUP_EDITS or size + len(text) > GROUP_BYTES):
            yield group
            group, size = [], 0
        group.append((edit, text))
        size += len(text)
    if group:
        yield group


class Session:
    """The one session of a server. `stored` has the documents of the desk with their versions, and `refused` those that it did not
    take, with its answer."""

    def __init__(self, words: list[str], workers: int) -> None:
        self.server = Server(words, workers)
        self.stored: dict[str, tuple[Document, int]] = {}
        self.refused: dict[str, tuple[Document, list[str]]] = {}
        self.asked = 0

    def end(self) -> None:
        self.server.end()

    def edits(self, documents: dict[str, Document]) -> list[Edit]:
        """What has the desk store these documents and no others."""
        self.refused = {name: it for name, it in self.refused.items() if name in documents}
        gone = [Edit(name, None, version) for name, (_, version) in self.stored.items() if name not in documents]
        fresh = [it for it in in_order(documents.values()) if self.is_news(it)]
        return gone + [Edit(it.name, it, self.stored[it.name][1] if it.name in self.stored else 0) for it in fresh]

    def is_news(self, document: Document) -> bool:
        """Whether the desk has not seen this document under its name, or another text of it."""
        known = self.stored.get(document.name) or self.refused.get(document.name)
        if known is None or known[0] is document:
            return known is None
        return known[0].text() != document.text()

    def put(self, edits: Sequence[Edit]) -> None:
        """Makes edits. A document that the desk refuses does not stand there then."""
        for group in in_groups((edit, edit.text()) for edit in edits):
            if len(group) == 1 or not self.put_group(group):
                for edit, text in group:
                    self.put_alone(edit, text)

    def put_group(self, group: list[tuple[Edit, bytes]]) -> bool:
        """Makes edits as one, or none of them if the desk refuses one."""
        entry = self.ask(b"".join([b"group\n", *[text for _, text in group], b"end\n"]))
        if entry.reply == ["grouped", str(len(group))]:
            for edit, _ in group:
                self.note(edit, entry.place + 1)
            return True
        if entry.reply[0] == "stopped" and entry.reply[2:3] == ["refused"]:
            return False
        raise self.unfit(entry)

    def put_alone(self, edit: Edit, text: bytes) -> None:
        """Makes one edit. If its document is refused, what stood under its name is removed."""
        entry = self.ask(text)
        if entry.reply[0] in ("stored", "removed"):
            self.note(edit, entry.place + 1)
        elif entry.reply[0] == "refused" and edit.document is not None:
            self.refused[edit.name] = (edit.document, entry.reply)
            if edit.version:
                gone = Edit(edit.name, None, edit.version)
                self.put_alone(gone, gone.text())
        else:
            raise self.unfit(entry)

    def note(self, edit: Edit, version: int) -> None:
        """Remembers that an edit was made."""
        if edit.document is None:
            del self.stored[edit.name]
        else:
            self.stored[edit.name] = (edit.document, version)
            self.refused.pop(edit.name, None)

    def build(self, roots: Sequence[str], told: Callable[[], None] = lambda: None) -> Built:
        """Builds a map, perhaps with a DITAVAL. `told` is called when the build is there, before its rows come."""
        entry = self.ask(f"build {' '.join(roots)}\n".encode("utf-8"))
        try:
            pages = rows.page_lines(entry) if entry.reply[0] == "built" else []
        except rows.Unread as fault:
            raise Ended(f"the desk's answer can't be read: {fault}") from None
        told()
        return Built(entry, pages, [self.row(page) for page in pages])

    def row(self, page: rows.Page) -> bytes:
        message = self.receive()
        if not message.startswith(b"row %d " % page.serial):
            raise Ended(f"the desk's answer can't be read: the row of the page `{page.name}` does not follow")
        return message

    def ask(self, request: bytes) -> Entry:
        """Sends a request, and gives the entry that answers it."""
        self.asked += 1
        lines = memoryview(request)
        try:
            for start in range(0, len(lines), MESSAGE_BYTES):
                self.server.link.send(bytes(lines[start:start + MESSAGE_BYTES]))
        except Broken:
            pass  # why that is so may have been told, and is read next
        message = self.receive()
        try:
            entry = rows.entry_in(message)
        except rows.Unread as fault:
            raise Ended(f"the desk's answer can't be read: {fault}") from None
        if entry.number != self.asked:
            raise self.unfit(entry)
        return entry

    def receive(self) -> bytes:
        """The next message, if the session goes on."""
        try:
            message = self.server.link.receive()
        except Broken as broken:
            raise Ended(self.server.why(broken)) from None
        if message is None:
            raise Ended(self.server.why(Broken("it closed the session")))
        if message.startswith(b"full "):
            raise Full
        return message

    def unfit(self, entry: Entry) -> Ended:
        return Ended(f"the desk's answer does not fit: request {self.asked}: {entry.number} {' '.join(entry.reply)}")
