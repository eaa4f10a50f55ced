"""Reads one XML file, and collects its lines of PYX and its references."""
from __future__ import annotations

import dataclasses
import os
import re
import xml.parsers.expat as expat

from publishing import names
from publishing.document import Document, KeyUse, Place, Reference, Term, html_id
from publishing.kinds import Kind, kind_of
from publishing.message import Message

PREDEFINED = frozenset({"lt", "gt", "amp", "apos", "quot"})
TAG = re.compile(rb"<[^\s/>]+(?:[^>\"']|\"[^\"]*\"|'[^']*')*>")
ENTITY = re.compile(rb"&([^#;&\s][^;&\s]*);")
AWAY = ("external", "peer")
BLANKS = " \t\r\n"


class Unread(Exception):
    """Why a file can't be read. `beside` are the files of entities and DTDs for which it asked by then."""

    def __init__(self, message: Message, beside: set[str] | None = None) -> None:
        super().__init__(str(message))
        self.message, self.beside = message, beside or set()


@dataclasses.dataclass(slots=True)
class Opened:
    """A file that is being read: the document, or an entity or DTD that it brings in."""

    path: str
    parser: expat.XMLParserType
    data: bytes


@dataclasses.dataclass(frozen=True, slots=True)
class Cascade:
    """What an element of a map says for those below it (DITA 1.3, "Cascading of metadata attributes in a DITA map")."""

    format: str = "dita"
    scope: str = "local"
    role: str = "normal"
    is_in_table: bool = False
    keyscope: Place = (0, 0)

    def below(self, kind: Kind, pairs: dict[str, str], place: Place) -> Cascade:
        """What counts for an element with these attributes. The format of a map passes to no child, and `keyscope` is the place of
        the element that begins the key scope."""
        return Cascade(
            pairs.get("format", "dita" if self.format == "ditamap" else self.format),
            pairs.get("scope", self.scope),
            pairs.get("processing-role", self.role),
            self.is_in_table or "map/reltable" in kind.types,
            place if pairs.get("keyscope", "").split() else self.keyscope,
        )


NOTHING_SAID = Cascade()


class Open:
    """An element that is open."""

    __slots__ = ("kind", "line", "topic", "cascade", "is_behind_element")

    def __init__(self, kind: Kind, line: int, topic: str, cascade: Cascade) -> None:
        self.kind, self.line, self.topic, self.cascade = kind, line, topic, cascade
        self.is_behind_element = False


def escaped(text: str) -> str:
    """A text or a value as a line of PYX has it."""
    return text.replace("\r", "").replace("\\", "\\\\").replace("\n", "\\n").replace("\t", "\\t")


def utf8(data: bytes) -> tuple[bytes, str | None]:
    """The bytes of a file, and the name of their encoding if it is not the file's own word for it."""
    if data[:2] in (b"\xff\xfe", b"\xfe\xff"):
        try:
            return data.decode("utf-16").encode("utf-8"), "UTF-8"
        except UnicodeError:
            pass
    return data, None


def bytes_of(path: str) -> bytes:
    with open(path, "rb") as file:
        return file.read()


def read(folder: str, name: str, path: str) -> Document | None:
    """The document of a file; none, if no such file is there, and Unread says why one can't be read. Entities and DTDs are read
    if they lie in FOLDER, which is a path without links."""
    if not os.path.isfile(path):
        return None
    try:
        data = bytes_of(path)
    except OSError as error:
        raise Unread(Message(names.shown(path), 0, 0, f"the file can't be read: {error.strerror}")) from None
    return Reader(folder, Document(name, path)).read(data)


class Reader:
    """Reads one file. `files` are those that are open, the document first, and `terms` the index terms that are open, each with how
    many elements stand around it."""

    def __init__(self, folder: str, document: Document) -> None:
        self.folder, self.document, self.parts = folder, document, document.parts
        self.text: list[str] = []
        self.open: list[Open] = []
        self.files: list[Opened] = []
        self.terms: list[tuple[int, Term]] = []
        self.declared = set(PREDEFINED)
        self.has_unread_dtd = False

    def read(self, data: bytes) -> Document:
        data, encoding = utf8(data)
        parser = self.parser = expat.ParserCreate(encoding)
        parser.ordered_attributes = parser.buffer_text = True
        parser.SetParamEntityParsing(expat.XML_PARAM_ENTITY_PARSING_ALWAYS)
        parser.StartElementHandler = self.start
        parser.EndElementHandler = self.end
        parser.CharacterDataHandler = self.text.append
        parser.EntityDeclHandler = self.declare
        parser.SkippedEntityHandler = self.skip
        parser.ExternalEntityRefHandler = self.bring_in
        self.parse(self.document.path, parser, data)
        return self.document

    def parse(self, path: str, parser: expat.XMLParserType, data: bytes) -> None:
        parser.SetBase(names.encoded(path))
        self.files.append(Opened(path, parser, data))
        try:
            parser.Parse(data, True)
        except expat.ExpatError as error:
            raise self.unread(self.not_well_formed(error), error.lineno, error.offset) from None
        except (LookupError, ValueError) as error:
            raise self.unread(f"its encoding is not read: {error}") from None
        self.files.pop()

    def not_well_formed(self, error: expat.ExpatError) -> str:
        if not self.files[-1].data:
            return "the file is empty"
        inside = f"; the innermost open element is <{self.open[-1].kind.name}> of line {self.open[-1].line}" if self.open else ""
        return f"not well-formed XML: {expat.ErrorString(error.code)}{inside}"

    def unread(self, sentence: str, line: int | None = None, column: int | None = None) -> Unread:
        last = self.files[-1]
        line = last.parser.CurrentLineNumber if line is None else line
        column = last.parser.CurrentColumnNumber if column is None else column
        return Unread(Message(names.shown(last.path), line, column + 1, sentence), self.document.beside)

    def start(self, name: str, attributes: list[str]) -> None:
        around = self.open[-1] if self.open else None
        if self.text:
            self.flush()
        elif around is not None and around.is_behind_element and around.kind.is_element_only:
            self.parts.append("-\\n")
        if self.has_unread_dtd:
            self.look_for_unknown_entities()
        line, column = self.parser.CurrentLineNumber, self.parser.CurrentColumnNumber + 1
        if not attributes and around is not None:
            kind = kind_of(name, None, self.document.is_map)
            if kind.is_plain:
                self.open.append(Open(kind, line, around.topic, around.cascade))
                self.parts.append(f"?line {line}:{column}\n{kind.head}")
                return
        written = dict(zip(attributes[::2], attributes[1::2]))
        kind = kind_of(name, written.get("class"), self.document.is_map)
        pairs = with_defaults(kind, written)
        self.begin(kind, pairs, (line, column), around)
        self.note(kind, pairs, (line, column))
        self.parts += (f"?line {line}:{column}\n({name}", *[f"A{key} {escaped(value)}" for key, value in pairs.items()])

    def begin(self, kind: Kind, pairs: dict[str, str], place: Place, around: Open | None) -> None:
        """Opens an element; the root says what document it is."""
        if around is None:
            self.document.is_map = kind.is_map
            self.document.has_dita_root = kind.is_map or kind.is_topic or kind.name in ("dita", "val")
        topic = pairs.get("id", "") if kind.is_topic else around.topic if around is not None else ""
        cascade = around.cascade if around is not None else NOTHING_SAID
        self.open.append(Open(kind, place[0], topic, cascade.below(kind, pairs, place) if self.document.is_map else NOTHING_SAID))

    def end(self, name: str) -> None:
        if self.text:
            self.flush()
        self.open.pop()
        if self.terms and self.terms[-1][0] == len(self.open):
            self.terms.pop()
        if self.open:
            self.open[-1].is_behind_element = True
        self.parts.append(")" + name)

    def flush(self) -> None:
        text = self.text[0] if len(self.text) == 1 else "".join(self.text)
        self.text.clear()
        if line := escaped(text):
            self.parts.append("-" + line)
            if self.open:
                self.open[-1].is_behind_element = False
            if self.terms and text.strip(BLANKS):
                self.terms[-1][1].has_text = True

    def note(self, kind: Kind, pairs: dict[str, str], place: Place) -> None:
        """Brings the references of an element into the desk's form, and remembers them with its ids and keys."""
        document, opened = self.document, self.open[-1]
        if kind.is_node or kind.is_map:
            document.nodes += 1
        if kind.is_term or kind.is_beside_term:
            needs_text = kind.is_term and not pairs.keys() & {"end", "conref", "conkeyref"}
            document.terms.append(Term(kind.name, place, kind.is_term, not self.terms, needs_text))
            self.terms.append((len(self.open) - 1, document.terms[-1]))
        if "id" in pairs:
            key = pairs["id"] if kind.is_topic else html_id(opened.topic, pairs["id"])
            document.ids.setdefault(key, (pairs["id"], []))[1].append(place)
        for attribute in ("conref", "conrefend"):
            if attribute in pairs:
                self.refer(pairs, attribute, place, "content")
        for attribute in ("keyref", "conkeyref"):
            if attribute in pairs:
                document.keys.append(KeyUse(place, pairs[attribute], kind.is_image))
        if "href" in pairs and (kind.refers or kind.is_image):
            self.note_href(kind, pairs, place)

    def note_href(self, kind: Kind, pairs: dict[str, str], place: Place) -> None:
        said = self.open[-1].cascade if self.document.is_map else NOTHING_SAID.below(kind, pairs, place)
        if said.scope in AWAY:
            self.document.away.add(pairs["href"])
            return
        is_ditaval = "ditavalref-d/ditavalref" in kind.types
        is_document = not kind.is_image and (is_ditaval or said.format == "dita" or (kind.is_topicref and said.format == "ditamap"))
        asks = ("node" if kind.is_topicref else "link") if is_document else "file"
        target = self.refer(pairs, "href", place, asks)
        makes_page = asks == "node" and said.format == "dita" and said.role == "normal" and not said.is_in_table and not is_ditaval
        if makes_page and target:
            self.document.pages.append((target, said.keyscope))

    def refer(self, pairs: dict[str, str], attribute: str, place: Place, asks: str) -> str | None:
        """Brings one reference into the desk's form; gives the name to which it leads."""
        written = pairs[attribute]
        if names.has_scheme(written) or not written:
            return None
        value = names.normalised(written)
        pairs[attribute] = value
        path, fragment = names.split(value)
        target = names.joined(self.document.name, path)
        opened = self.open[-1]
        self.document.references.append(
            Reference(place, attribute, written, value, target, fragment, opened.topic, asks, opened.cascade.keyscope))
        return target

    def declare(self, name: str, is_parameter: bool, *_: object) -> None:
        if not is_parameter:
            self.declared.add(name)

    def skip(self, name: str, is_parameter: bool) -> None:
        if not is_parameter:
            raise self.unread(f"the entity &{name}; is not declared here, nor in a DTD in the folder")
        self.has_unread_dtd = True

    def look_for_unknown_entities(self) -> None:
        """Behind a DTD that was not read the parser passes over unknown entities in attributes in silence."""
        last = self.files[-1]
        if tag := TAG.match(last.data, last.parser.CurrentByteIndex):
            for found in ENTITY.findall(tag[0]):
                if found.decode("utf-8", "replace") not in self.declared:
                    self.skip(found.decode("utf-8", "replace"), False)

    def bring_in(self, context: str | None, base: str, system: str | None, _public: str | None) -> int:
        """An entity or a part of a DTD that is a file of its own: files of FOLDER are read, and no others."""
        path = os.path.normpath(os.path.join(os.path.dirname(names.decoded(base)), system or ""))
        self.document.beside.add(path)
        if not system or not os.path.isfile(path) or not os.path.realpath(path).startswith(self.folder + os.sep):
            if context is not None:
                raise self.unread(f"the file `{system}` of an entity is not in the folder")
            self.has_unread_dtd = True
            return 1
        data, encoding = utf8(bytes_of(path))
        part = self.files[-1].parser
        part = part.ExternalEntityParserCreate(context, encoding) if encoding else part.ExternalEntityParserCreate(context)
        self.parse(path, part, data)
        return 1


def with_defaults(kind: Kind, written: dict[str, str]) -> dict[str, str]:
    """The attributes of an element, its class first unless it gives one, and its other defaults last."""
    if not kind.defaults:
        return written
    first, *others = kind.defaults
    return {first[0]: first[1], **written, **{key: value for key, value in others if key not in written}}
