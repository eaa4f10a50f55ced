"""Sources that are read again and again: a document is parsed anew only if a file of which it is made was saved.

What is known of a file is noted before it is read, so a change behind the reading is found by the next look."""
from __future__ import annotations

import dataclasses
import pathlib
from collections.abc import Collection

from publishing import reader
from publishing.closure import Sources
from publishing.document import Document
from publishing.message import Message
from publishing.watch import Watcher


@dataclasses.dataclass
class Kept:
    """What a file was when it was read: `good` is the last document that was well formed, and `fault` why the file is none now."""

    good: Document | None
    fault: reader.Unread | None
    beside: set[str]


class KeptSources(Sources):
    """The documents of one moment after the other. A file that is not well formed any more stands as its last good document, and
    `stale` says why."""

    def __init__(self, folder: pathlib.Path, watcher: Watcher) -> None:
        super().__init__(folder)
        self.watcher = watcher
        self.kept: dict[str, Kept] = {}
        self.asked: set[str] = set()
        self.saved: Collection[str] = ()
        self.stale: dict[str, Message] = {}

    def renew(self, saved: Collection[str]) -> None:
        """Forgets which documents are reached; those of the files that were saved will be parsed anew."""
        self.saved = saved
        self.documents, self.unread, self.foreign = {}, {}, set()
        self.stale, self.asked = {}, set()

    def settle(self) -> None:
        """Ends a renewal: what was not asked for is forgotten."""
        self.saved = ()
        self.kept = {name: it for name, it in self.kept.items() if name in self.asked}

    def files(self) -> set[str]:
        """The files that decide what the documents are: those that are there, and those that may come."""
        found = {self.path(name) for name in self.asked}
        for it in self.kept.values():
            found |= it.beside
        return found

    def fetch(self, name: str) -> Document | None:
        path = self.path(name)
        self.asked.add(name)
        self.watcher.add(path)
        kept = self.kept.get(name)
        if kept is None or path in self.saved or any(it in self.saved for it in kept.beside):
            kept = self.kept[name] = self.anew(name, path, kept)
        if kept.good is None and kept.fault is not None:
            raise kept.fault
        if kept.good is not None and kept.fault is not None:
            told = kept.fault.message
            self.stale[name] = Message(told.path, told.line, told.column, f"{told.sentence}: its last good version stays")
        return kept.good

    def anew(self, name: str, path: str, before: Kept | None) -> Kept:
        """What the file is now."""
        try:
            document = reader.read(self.real_folder, name, path)
        except reader.Unread as fault:
            self.watch(fault.beside)
            return Kept(before.good if before is not None else None, fault, fault.beside)
        if document is not None:
            self.watch(document.beside)
        return Kept(document, None, document.beside if document is not None else set())

    def watch(self, beside: set[str]) -> None:
        for path in beside:
            self.watcher.add(path)
