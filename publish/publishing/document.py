"""A document as it was read: its lines for the desk, and what the tool itself wants to know of it."""
from __future__ import annotations

import dataclasses

Place = tuple[int, int]


def html_id(topic: str, element: str) -> str:
    """The id in a page of an element, by its own and that of the topic around it."""
    return f"{topic}__{element}"


def place_in(lines: list[str], line: int) -> Place:
    """The place in a file that the last mark `?line LINE:COLUMN` before the end of this line of PYX names; zeros if there is none."""
    for text in reversed(lines[:line]):
        if text.startswith("?line "):
            row, _, column = text[6:].partition(":")
            return int(row), int(column or 0)
    return 0, 0


@dataclasses.dataclass(slots=True)
class Reference:
    """An attribute that leads somewhere. `written` is its value in the file and `value` what the desk is given.

    `target` is the document or file to which it leads, by its name; none, if that is no file of FOLDER. `topic` is the id of the
    topic around it. `asks` is how it leads there: as a `node` of a map, for `content`, as a `link`, or as to a `file`. In a map
    `keyscope` is the place of the element that begins the key scope around it."""

    place: Place
    attribute: str
    written: str
    value: str
    target: str | None
    fragment: str
    topic: str
    asks: str
    keyscope: Place


@dataclasses.dataclass(slots=True)
class KeyUse:
    """A `keyref` or `conkeyref`, and whether it stands on an image."""

    place: Place
    value: str
    is_image: bool


@dataclasses.dataclass(slots=True)
class Term:
    """An index term, or an element in one whose text is not the term's, such as `index-see`; `is_outermost` if it stands in no other.
    A term in an index needs a text, unless it is the end of a range or brings its content in."""

    name: str
    place: Place
    is_term: bool
    is_outermost: bool
    needs_text: bool
    has_text: bool = False


@dataclasses.dataclass(slots=True)
class Document:
    """A document that is well formed. `parts` are its lines for the desk, one or several in each. `ids` has each id as pages have it,
    with the id as written and its places. `away` are the references that lead elsewhere by their scope. `pages` are the targets of which
    a map makes pages, with the place of their key scope, and `nodes` counts its nodes, as the desk counts them. `beside` are the files of
    entities and DTDs that it asks for."""

    name: str
    path: str
    parts: list[str] = dataclasses.field(default_factory=list)
    is_map: bool = False
    has_dita_root: bool = False
    references: list[Reference] = dataclasses.field(default_factory=list)
    keys: list[KeyUse] = dataclasses.field(default_factory=list)
    ids: dict[str, tuple[str, list[Place]]] = dataclasses.field(default_factory=dict)
    terms: list[Term] = dataclasses.field(default_factory=list)
    away: set[str] = dataclasses.field(default_factory=set)
    pages: list[tuple[str, Place]] = dataclasses.field(default_factory=list)
    nodes: int = 0
    beside: set[str] = dataclasses.field(default_factory=set)
    split: list[str] | None = None
    bytes: int = 0

    def text(self) -> str:
        """Its lines for the desk, the last one without its end."""
        return "\n".join(self.parts)

    def place(self, line: int) -> Place:
        """The line and the column in the file of what stands in this line of PYX, counted from 1."""
        if self.split is None:
            self.split = self.text().split("\n")
        return place_in(self.split, line)

    def size(self) -> int:
        """How many bytes its lines have, with their ends."""
        if not self.bytes:
            self.bytes = len(self.text().encode("utf-8")) + 1
        return self.bytes
