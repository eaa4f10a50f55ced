"""The faults of a build as a writer reads them: with the file, the line and the column, the words that stand there, and why."""
from __future__ import annotations

import collections
import posixpath
from collections.abc import Iterable, Iterator

from publishing import limits, names
from publishing.closure import ENDINGS, Sources
from publishing.document import Document, Place, Reference
from publishing.message import Message, Stop, counted
from publishing.sentences import REFUSALS, STOPS, sentence_of
from publishing.transcript import Fault

MISSING = {
    "TopicMissing": "it gets no page",
    "MapMissing": "nothing of it is published",
    "DitavalMissing": "nothing is filtered by it",
    "ConrefMissing": "the content is not brought in",
    "LinkNoPage": "no link leads there",
    "NotTopic": "it gets no page",
    "BadReference": "nothing comes of it",
}
KINDS = {"ConrefMissing": "file", "MapMissing": "map", "DitavalMissing": "DITAVAL"}
NAMED = frozenset({"MapMissing", "MapCycle", "TopicMissing", "NotTopic", "DitavalMissing", "LinkNoPage", "NameChanged"})


class Teller:
    """Turns the faults of one build into messages. `refused` has why the desk did not store a document, by its name."""

    def __init__(self, sources: Sources, refused: dict[str, Message]) -> None:
        self.sources, self.refused = sources, refused
        self.only_images = only_images(sources)

    def message(self, fault: Fault) -> Message:
        document = self.sources.documents[fault.name]
        place = document.place(fault.line)
        reference = reference_at(document, place, fault.detail)
        sentence = self.sentence(fault, document, reference)
        return Message(self.sources.place(fault.name), *place, sentence, fault.code)

    def sentence(self, fault: Fault, document: Document, reference: Reference | None) -> str:
        """The sentence of a fault, by what is known of the reference that it is about."""
        if fault.code in MISSING and (told := self.missing(fault, reference)):
            return told
        if fault.code == "BadReference" and reference is not None and reference.target is None and reference.value[:1] != "#":
            return f"the reference `{reference.written}` leads out of the folder {self.sources.folder}: name one around it by -i"
        is_written = reference is not None and fault.code not in NAMED
        return sentence_of(fault.code, reference.written if is_written else shown(fault))

    def missing(self, fault: Fault, reference: Reference | None) -> str | None:
        """Why a document or an element is not there, if the tool knows better than the desk."""
        name = reference.target if reference is not None else names.split(fault.detail)[0]
        if not name or (reference is not None and reference.asks == "file"):
            return None
        so, title = MISSING[fault.code], self.sources.shown(name)
        why = self.unread(name)
        if why is not None:
            return f"`{title}` can't be read ({why.place}): {so}"
        if name not in self.sources.documents:
            return self.not_there(fault, name, title, so)
        if fault.code == "ConrefMissing" and reference is not None:
            return f"`{title}` has no element `{reference.fragment or '(none)'}`: {so}"
        return None

    def unread(self, name: str) -> Message | None:
        return self.sources.unread.get(name) or self.refused.get(name)

    def not_there(self, fault: Fault, name: str, title: str, so: str) -> str | None:
        """What is told where no document of a name was read."""
        if name in self.sources.foreign:
            form = posixpath.splitext(name)[1][1:].lower() or "text"
            return f"`{title}` is no DITA file: write format=\"{form}\" here; as it is, {so}"
        if self.sources.is_there(name):
            return None
        alike = self.sources.alike(name)
        hint = f" (there is `{alike}`)" if alike else "" if name.endswith(ENDINGS) else " (a file that is no DITA needs a `format`)"
        return f"there is no {KINDS.get(fault.code, 'topic')} `{title}`{hint}: {so}"


def shown(fault: Fault) -> str:
    """The detail of a fault with the real name of a file, where it is one."""
    return names.shown(names.decoded(fault.detail)) if fault.code in NAMED else fault.detail


def reference_at(document: Document, place: Place, detail: str) -> Reference | None:
    """The reference at a place that a fault's detail is about."""
    here = [it for it in document.references if it.place == place]
    return next((it for it in here if detail and detail in (it.value, it.target)), None)


def refusals(sources: Sources, replies: Iterable[tuple[str, list[str]]]) -> dict[str, Message]:
    """Why the desk did not store a document, by its name; `replies` has its answer to each."""
    told = {}
    for name, reply in replies:
        if reply[0] == "refused":
            place = sources.documents[name].place(int(reply[2])) if reply[1] != "TooLong" else (0, 0)
            sentence = REFUSALS.get(reply[1], "the document is left out")
            told[name] = Message(sources.place(name), *place, sentence, reply[1])
    return told


def check_built(sources: Sources, roots: list[str], reply: list[str]) -> None:
    """Stops if a build, whose reply this is, gave no pages."""
    if reply[0] != "built":
        place, beyond = sources.place(roots[0]), limits.beyond(sources, roots[0], reply)
        words = " ".join(sources.shown(name) for name in roots)
        raise Stop(f"{place}: {beyond}" if beyond else f"{place}: {STOPS.get(reply[0], '`{}`').format(words)}")


def only_images(sources: Sources) -> dict[str, bool]:
    """Whether only images of topics use a key, by its name, perhaps through a scope: such a key needs no text."""
    found: dict[str, bool] = {}
    for document in sources.documents.values():
        for use in () if document.is_map else document.keys:
            names_of_key = use.value.partition("/")[0].split(".")
            for place in range(len(names_of_key)):
                name = ".".join(names_of_key[place:])
                found[name] = found.get(name, True) and use.is_image
    return found


def told_all(teller: Teller, faults: Iterable[Fault]) -> Iterator[Message]:
    """A message for each fault of a build; content that can't be published is told once for each element, with its count."""
    foreign: dict[str, list[Message]] = collections.defaultdict(list)
    for fault in faults:
        if fault.code == "Foreign":
            foreign[fault.detail].append(teller.message(fault))
        elif not (fault.code == "KeyNoText" and teller.only_images.get(fault.detail)):
            yield teller.message(fault)
    for name, messages in foreign.items():
        first = min(messages)
        more = f" (here, and {counted(len(messages) - 1, 'time')} more)" if len(messages) > 1 else ""
        yield Message(first.path, first.line, first.column, f"{first.sentence}{more}", "Foreign")
