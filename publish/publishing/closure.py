"""Which files a map reaches: what is read, what can't be read, and what is not there.

A map leads to maps, topics and DITAVALs, and these to what they bring in; all of them are followed. Where a link leads is read too, for
its title, and not followed further."""
from __future__ import annotations

import os
import pathlib
from collections.abc import Callable, Iterator

from publishing import names, reader
from publishing.document import Document
from publishing.message import Message, Stop

ENDINGS = (".dita", ".ditamap", ".bookmap", ".ditaval", ".xml")
OUTSIDE = "outside:"


class Sources:
    """The documents that were read, by their names. `unread` says of each other one that is reached why it can't be read, and
    `foreign` has the files that are reached like documents and are no DITA."""

    def __init__(self, folder: pathlib.Path) -> None:
        self.folder = folder
        self.documents: dict[str, Document] = {}
        self.unread: dict[str, Message] = {}
        self.foreign: set[str] = set()
        self.paths: dict[str, str] = {}
        self.real_folder = os.path.realpath(folder)
        self.base = os.path.join(folder, "") if str(folder) != os.curdir else ""

    def path(self, name: str) -> str:
        """The file that has a name, whether or not it is there."""
        return self.paths.get(name) or self.base + names.decoded(name)

    def shown(self, name: str) -> str:
        """How messages name a document: by its path below FOLDER."""
        return names.shown(self.paths.get(name) or names.decoded(name))

    def place(self, name: str) -> str:
        """How messages name the place of a document: by its path."""
        return names.shown(self.path(name))

    def is_there(self, name: str) -> bool:
        return os.path.isfile(self.path(name))

    def alike(self, name: str) -> str | None:
        """What has another path than this name, but by its capitals alone, or by how its accents are written."""
        wanted, found = names.decoded(name).split("/"), ""
        for segment in wanted:
            try:
                entries = os.listdir(self.base + found or ".")
            except OSError:
                return None
            same = [it for it in entries if names.folded(it) == names.folded(segment)]
            if not same:
                return None
            found = os.path.join(found, segment if segment in same else same[0])
        return names.shown(found) if found != names.decoded(name) else None

    def name_of(self, path: str) -> str:
        """The document name of a file of the command. One that lies outside of FOLDER has a name that no file of FOLDER can have."""
        below = os.path.relpath(path, self.folder)
        if not below.startswith(os.pardir + os.sep):
            return names.encoded(below)
        name = OUTSIDE + names.encoded(os.path.basename(path))
        self.paths[name] = path
        return name

    def read(self, name: str) -> Document | None:
        """The document of a name, read once; none if it can't be read, is not there, or is no DITA."""
        if name in self.documents or name in self.unread or name in self.foreign:
            return self.documents.get(name)
        has_ending = name.endswith(ENDINGS)
        try:
            document = self.fetch(name)
        except reader.Unread as unread:
            if has_ending:
                self.unread[name] = unread.message
            else:
                self.foreign.add(name)
            return None
        if document is None:
            return None
        if names.is_too_long(name):
            self.unread[name] = Message(self.place(name), 0, 0, "the path of the file is longer than 255 bytes")
        elif not has_ending and not document.has_dita_root:
            self.foreign.add(name)
        else:
            self.documents[name] = document
        return self.documents.get(name)


    def fetch(self, name: str) -> Document | None:
        """The document of the file of a name, whatever it is; none if there is no file."""
        return reader.read(self.real_folder, name, self.path(name))


def leads(document: Document) -> Iterator[tuple[str, bool]]:
    """The names to which a document leads, and whether what is there is followed in turn."""
    for reference in document.references:
        if reference.target is None or reference.asks == "file" or (document.is_map and reference.asks == "content"):
            continue
        yield reference.target, reference.asks != "link"


def reach(sources: Sources, roots: list[str], tell: Callable[[int], None] = lambda count: None) -> None:
    """Reads all that these documents reach."""
    waiting, followed = list(reversed(roots)), set(roots)
    while waiting:
        document = sources.read(waiting.pop())
        tell(len(sources.documents))
        if document is None:
            continue
        for name, is_followed in leads(document):
            if is_followed and name not in followed:
                followed.add(name)
                waiting.append(name)
            elif not is_followed:
                sources.read(name)


def left_out(sources: Sources) -> Iterator[Message]:
    """A message for each document that is reached and can't be read."""
    return (Message(it.path, it.line, it.column, f"{it.sentence}: the document is left out") for it in sources.unread.values())


def check_roots(sources: Sources, roots: list[str]) -> None:
    """Stops if the map or the DITAVAL was not read."""
    for name in roots:
        if name not in sources.documents:
            why = "can't be read" if sources.is_there(name) else "is not there any more"
            raise Stop(f"{sources.place(name)}: {why}")


def files_below(folder: pathlib.Path) -> Iterator[str]:
    """The files that may be documents, by their paths below FOLDER; links to folders are followed, each folder is looked at once, and
    names that begin with a dot are passed over."""
    seen = set()
    for place, folders, files in os.walk(folder, followlinks=True):
        status = os.stat(place)
        if (status.st_dev, status.st_ino) in seen:
            folders.clear()
            continue
        seen.add((status.st_dev, status.st_ino))
        folders[:] = sorted(name for name in folders if not name.startswith("."))
        below = os.path.relpath(place, folder)
        found = sorted(name for name in files if name.endswith(ENDINGS) and not name.startswith("."))
        yield from (name if below == os.curdir else os.path.join(below, name) for name in found)


def not_reached(sources: Sources, tell: Callable[[int], None] = lambda count: None) -> Iterator[Message]:
    """A warning for each file that is not well formed and that nothing reaches."""
    for count, path in enumerate(files_below(sources.folder)):
        name = names.encoded(path)
        if name in sources.documents or name in sources.unread:
            continue
        tell(count)
        try:
            reader.read(sources.real_folder, name, sources.path(name))
        except reader.Unread as unread:
            told = unread.message
            yield Message(told.path, told.line, told.column, f"{told.sentence}: nothing that is published leads to this file",
                          is_warning=True)
