"""What DITA 1.3 says of an element by its name: its class, its defaults, and what kind of content it has.

The tables `classes` and `element-only` beside this file have it; an element that gives a class of its own is judged by that class."""
from __future__ import annotations

import dataclasses
import functools
import pathlib

HERE = pathlib.Path(__file__).resolve().parent


@dataclasses.dataclass(frozen=True, slots=True)
class Kind:
    """What is known of an element before its attributes are read. `head` has the lines of PYX that begin it if nothing is written in
    it, and of one that is plain nothing else needs to be known."""

    name: str
    defaults: tuple[tuple[str, str], ...]
    types: frozenset[str]
    head: str
    is_plain: bool
    is_element_only: bool
    is_topic: bool
    is_map: bool
    is_node: bool
    is_topicref: bool
    is_image: bool
    is_term: bool
    is_beside_term: bool
    refers: bool


@functools.cache
def class_table() -> dict[str, tuple[tuple[str, str], ...]]:
    """The class and the other attributes that an element has by default, by its name; `map:NAME` is the one within maps."""
    table = {}
    for line in (HERE / "classes").read_text(encoding="utf-8").split("\n"):
        if line and not line.startswith("#"):
            value, _, defaults = line.partition(" ; ")
            name, _, class_value = value.partition(" ")
            pairs = [tuple(word.split("=", 1)) for word in defaults.split()]
            table[name] = (("class", class_value + " "), *pairs)
    return table


@functools.cache
def element_only() -> frozenset[str]:
    lines = (HERE / "element-only").read_text(encoding="utf-8").split("\n")
    return frozenset(line for line in lines if line and not line.startswith("#"))


@functools.cache
def kind_of(name: str, own_class: str | None, is_in_map: bool) -> Kind:
    """The kind of an element of this name; `own_class` is the class that it gives itself, or a DTD gives it."""
    table = class_table()
    given = ((is_in_map and table.get("map:" + name)) or table.get(name, ())) if own_class is None else ()
    class_value = own_class if own_class is not None else dict(given).get("class", "")
    types = frozenset(word for word in class_value.split() if "/" in word)
    traits = {
        "is_topic": "topic/topic" in types,
        "is_map": "map/map" in types,
        "is_node": bool(types & {"map/topicref", "map/reltable", "map/relrow", "map/relcell"}),
        "is_topicref": "map/topicref" in types,
        "is_image": "topic/image" in types,
        "is_term": "topic/indexterm" in types,
        "is_beside_term": "topic/index-base" in types,
        "refers": bool(types & {"topic/xref", "topic/link", "map/topicref"}),
    }
    head = "\n".join(["(" + name, *(f"A{key} {value}" for key, value in given)])
    is_plain = bool(types) and not any(traits.values())
    return Kind(name, tuple(given), types, head, is_plain, bool(types & element_only()), **traits)
