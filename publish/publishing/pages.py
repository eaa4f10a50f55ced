"""What stands in the pages of a build: their ids, and where they lead.

The desk escapes `<` in texts, and `<`, `>` and `"` in values, so its tags are found by what they look like."""
from __future__ import annotations

import collections
import dataclasses
import functools
import html
import os
import pathlib
import posixpath
import re
import urllib.parse

from publishing import names

TAG = re.compile(r"<([a-z0-9]+) ([^<>]*)>")
VALUE = re.compile(r'(?:^| )(id|href|src)="([^"]*)"')


@dataclasses.dataclass(frozen=True, slots=True)
class Link:
    """Where a page leads: a path below OUT as files have it, and an id there, perhaps empty. `path` is none if that is outside."""

    path: str | None
    fragment: str
    written: str
    is_picture: bool


@dataclasses.dataclass(slots=True)
class Page:
    """A page: its path below OUT as the file has it, its ids with how often each stands there, and its links to files and pages."""

    path: str
    ids: collections.Counter[str]
    links: list[Link]


def is_away(value: str) -> bool:
    """Whether a link of a page leads to another site."""
    return names.has_scheme(value) or value.startswith("//")


@functools.lru_cache(maxsize=1 << 16)
def target_of(folder: str, path: str) -> str | None:
    """The path below OUT to which a path leads from a page of a folder, both as the desk has them; none if it leads out of OUT."""
    target = posixpath.normpath(names.decoded(posixpath.join(folder, path)))
    return None if target.startswith(("../", "/")) or target == ".." else target


def link_of(page: str, value: str, is_picture: bool) -> Link:
    """The link of a value that leads to no other site; `page` is the name of the page as the desk has it."""
    path, _, fragment = value.partition("#")
    path = path.partition("?")[0]
    target = target_of(posixpath.dirname(page), path) if path else names.decoded(page)
    return Link(target, urllib.parse.unquote(fragment) if "%" in fragment else fragment, value, is_picture)


def page_of(name: str, text: str) -> Page:
    """What stands in a page that has this name at the desk."""
    page = Page(names.decoded(name), collections.Counter(), [])
    for tag, attributes in TAG.findall(text):
        for key, value in VALUE.findall(attributes):
            value = html.unescape(value) if "&" in value else value
            if key == "id":
                page.ids[value] += 1
            elif not is_away(value):
                page.links.append(link_of(name, value, tag == "img"))
    return page


def below(folder: pathlib.Path) -> list[str]:
    """The names of the pages below a folder, as the desk has them."""
    found = []
    for place, _, files in os.walk(folder):
        found += [os.path.relpath(os.path.join(place, name), folder) for name in files]
    return sorted(found)
