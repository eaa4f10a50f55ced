"""What the pages lack, told by the lines of the sources: ids that are not there or stand twice, pictures and files that are missing.

The pages decide whether something is told, so what a filter took away is not; the sources say where."""
from __future__ import annotations

import collections
import os
import posixpath
import re
from collections.abc import Callable, Collection, Iterator

import style
from publishing import names
from publishing.closure import Sources
from publishing.document import Document, KeyUse, Place, Reference, Term, html_id
from publishing.message import Message, counted
from publishing.pages import Link, Page


def asked_id(reference: Reference) -> str:
    """The id in a page that a reference asks for."""
    topic, slash, element = reference.fragment.partition("/")
    return html_id(reference.topic if topic == "." else topic, element) if slash else topic


def own_page(document: Document) -> str:
    """The path of the page of a document, if nothing renames it."""
    return names.decoded(posixpath.splitext(document.name)[0]) + ".html"


class Checks:
    """Checks the pages of one build against the files beside them."""

    def __init__(self, sources: Sources, pages: dict[str, Page], place_of_page: Callable[[str], str]) -> None:
        self.sources, self.pages, self.place_of_page = sources, pages, place_of_page
        self.documents = list(sources.documents.values())
        self.away = {value for document in self.documents for value in document.away}
        self.document_of_page = {own_page(document): document.name for document in self.documents if not document.is_map}
        self.told: set[Message] = set()
        self.of_target: dict[str, list[tuple[Document, Reference]]] = collections.defaultdict(list)
        self.of_id: dict[str, list[tuple[Document, Reference]]] = collections.defaultdict(list)
        self.of_dot: dict[str, list[tuple[Document, Reference]]] = collections.defaultdict(list)
        self.by_key: dict[str, list[tuple[Document, KeyUse]]] = collections.defaultdict(list)
        self.by_written: dict[str, tuple[Document, Place]] = {}
        self.index()

    def all(self) -> list[Message]:
        """Everything that is wrong, each once."""
        for page in self.pages.values():
            for link in set(page.links):
                self.told.update(self.link(page, link))
            self.told.update(message for name, count in page.ids.items() if count > 1 for message in self.twice(page, name))
        self.told.update(self.hidden_by_pages())
        self.told.update(self.empty_index())
        return sorted(self.told)

    def index(self) -> None:
        """Finds references by what they lead to, uses of keys by the element that they ask for, and elements by their ids."""
        for document in self.documents:
            for reference in document.references:
                self.of_target[reference.target or ""].append((document, reference))
                if reference.asks in ("link", "node") and reference.fragment:
                    self.of_id[asked_id(reference)].append((document, reference))
                    if reference.fragment.startswith("./"):
                        self.of_dot[reference.fragment[2:]].append((document, reference))
            for written, places in document.ids.values():
                self.by_written.setdefault(written, (document, places[0]))
            for use in document.keys:
                if "/" in use.value:
                    self.by_key[use.value.partition("/")[2]].append((document, use))

    def link(self, page: Page, link: Link) -> Iterator[Message]:
        """What is wrong with a link of a page."""
        if link.path is None:
            yield from self.unknown(page, link, f"`{link.written}` leads out of the folder of the pages")
        elif link.path in self.pages:
            if link.fragment and link.fragment not in self.pages[link.path].ids:
                yield from self.no_id(page, link)
        else:
            path = self.sources.folder / link.path
            if not os.path.isfile(path):
                yield from self.no_file(page, link, "is a folder" if os.path.isdir(path) else "is missing")

    def at(self, document: Document, place: Place, sentence: str) -> Message:
        return Message(self.sources.place(document.name), *place, sentence)

    def on(self, page: Page, sentence: str) -> Message:
        """A message where nothing in the sources is known that it is about."""
        return Message(self.place_of_page(page.path), 0, 0, sentence)

    def unknown(self, page: Page, link: Link, sentence: str) -> list[Message]:
        """A link for which nothing in the sources is known that asks for it: nothing is told if its scope says that it leads elsewhere."""
        return [] if link.written in self.away else [self.on(page, sentence)]

    def no_id(self, page: Page, link: Link) -> list[Message]:
        """A link to an id that is in no page: told at each reference that asks for it. Else, it was brought in from another topic, or a
        key leads there."""
        target, element = self.document_of_page.get(link.path or ""), link.fragment.partition("__")[2]
        so = f"leads to no element: the page `{names.shown(link.path or '')}` has no such element, and the link leads to its top"
        asked = [(document, it) for document, it in self.of_id.get(link.fragment, ()) if target in (None, it.target)]
        told = [self.at(document, it.place, f"`{it.written}` {so}") for document, it in asked or self.of_dot.get(element, ())]
        by_key = [self.at(document, use.place, f"`{use.value}` {so}") for document, use in self.by_key.get(element, ())]
        return told or by_key or self.unknown(page, link, f"`{link.written}` {so}")

    def no_file(self, page: Page, link: Link, why: str) -> list[Message]:
        """A link to a file that is not there: told at each reference to it."""
        kind = "picture" if link.is_picture else "file"
        alike = self.sources.alike(names.encoded(link.path or "")) if why == "is missing" else None
        sentence = f"the {kind} `{names.shown(link.path or '')}` {why}{f' (there is `{alike}`)' if alike else ''}"
        found = self.of_target.get(names.encoded(link.path or ""), ())
        return [self.at(document, it.place, sentence) for document, it in found] or self.unknown(page, link, sentence)

    def twice(self, page: Page, name: str) -> Iterator[Message]:
        """An id that stands twice in a page: told at the second element of the document that has it."""
        own = self.sources.documents.get(self.document_of_page.get(page.path, ""))
        for document in [own] if own is not None else self.documents:
            written, places = document.ids.get(name, ("", []))
            if len(places) > 1:
                so = f"the id `{written}` stands in line {places[0][0]} already: links lead there"
                yield from (self.at(document, place, so) for place in places[1:])
                return
        yield self.brought_in(page, name)

    def brought_in(self, page: Page, name: str) -> Message:
        """An id that stands twice in a page since its element is brought in more than once, or beside another of its id."""
        title = names.shown(page.path)
        so = f"stands more than once in the page `{title}`, since content is brought in: links lead to the first"
        for found in re.finditer("__", name):
            written = name[found.end():]
            if written in self.by_written:
                document, place = self.by_written[written]
                return self.at(document, place, f"the id `{written}` {so}")
        return self.on(page, f"the id `{name}` {so}")

    def hidden_by_pages(self) -> Iterator[Message]:
        """References to a file in whose place a page stands."""
        for path in self.pages:
            for document, reference in self.of_target.get(names.encoded(path), ()):
                if reference.asks == "file" and (self.sources.folder / path).is_file():
                    yield self.at(document, reference.place, f"the file `{names.shown(path)}` is not copied: a page has its name")

    def empty_index(self) -> Iterator[Message]:
        """An index that is too large is an empty page, of which the desk tells nothing."""
        index = self.pages.get(style.TERMS_PAGE)
        if index is not None and not index.links:
            yield self.on(index, "the index has more than 4 MiB: it is empty")


def is_published(document: Document, names_of_pages: str) -> bool:
    """Whether a document is a map or has a page, as far as its name tells: a page in a branch has the name of its document within its
    own."""
    return document.is_map or posixpath.basename(own_page(document)).removesuffix(".html") in names_of_pages


def unseen(document: Document, term: Term, has_index: bool) -> str | None:
    """How a warning names an index term of which nothing is shown; none if there is an index that has it, or if it is a part of another
    one. An index has nothing of maps, of elements such as `index-see`, and of terms without a text."""
    if not has_index or document.is_map:
        return f"<{term.name}>{' in maps' if has_index else ''}" if term.is_term and term.is_outermost else None
    if not term.is_term:
        return f"<{term.name}>"
    return f"<{term.name}> without a text" if term.needs_text and not term.has_text else None


def passed_over(sources: Sources, pages: Collection[str], has_index: bool) -> Iterator[Message]:
    """A warning for each kind of index term of which no page, and no index, shows anything, at its first place."""
    found: dict[str, list[tuple[str, int, int]]] = collections.defaultdict(list)
    names_of_pages = "\n".join(posixpath.basename(page).removesuffix(".html") for page in pages
                               if page not in (style.CONTENTS_PAGE, style.TERMS_PAGE))
    for document in sources.documents.values():
        if document.terms and is_published(document, names_of_pages):
            for term in document.terms:
                if kind := unseen(document, term, has_index):
                    found[kind].append((sources.place(document.name), *term.place))
    show = "the index shows" if has_index else "pages show"
    for kind, places in sorted(found.items()):
        yield Message(*min(places), f"{show} nothing of {kind}: {counted(len(places), 'element')} of the sources", is_warning=True)


def told(sources: Sources, pages: dict[str, Page], place_of_page: Callable[[str], str], has_index: bool) -> Iterator[Message]:
    """All that pages lack, and of what they show nothing."""
    yield from Checks(sources, pages, place_of_page).all()
    yield from passed_over(sources, pages, has_index)
