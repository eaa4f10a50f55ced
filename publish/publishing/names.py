"""Names of files, names of documents and references, and how each becomes the other.

A document name is the path of its file below FOLDER, in which each byte that a document name or a link of a page can't hold is
written `%XX`: a control, a space, `%`, `#`, `?`, `:`, a backslash, and a byte that is no UTF-8. A reference is brought to the same form,
in whichever way its writer escaped it, so it names the same document. Decoded, a page's name is the name of its file: a browser
decodes the link of a page in the same way and finds it."""
from __future__ import annotations

import os
import re
import unicodedata
import urllib.parse

LONGEST = 255
UNHELD = re.compile("[\x00-\x20\x7f%#?:\\\\\ud800-\udfff]")
SCHEME = re.compile("[^/#]*:")


def _escape(found: re.Match[str]) -> str:
    return "".join(f"%{byte:02X}" for byte in os.fsencode(found[0]))


def encoded(path: str) -> str:
    """The document name of a path below FOLDER, as Python has it (a byte that is no UTF-8 is a lone surrogate)."""
    return UNHELD.sub(_escape, path)


def decoded(name: str) -> str:
    """The path of the file that has a document name, or the name of a page."""
    return os.fsdecode(urllib.parse.unquote_to_bytes(name)) if "%" in name else name


def shown(path: str) -> str:
    """A path as it can be printed: a byte that is no UTF-8 becomes `?`."""
    return path.encode("utf-8", "replace").decode("utf-8")


def folded(segment: str) -> str:
    """A part of a path without its capitals, its accents in one form."""
    return unicodedata.normalize("NFC", segment).casefold()


def has_scheme(value: str) -> bool:
    """Whether a `:` stands before the first `/` and `#`: the value then leads to another site."""
    return SCHEME.match(value) is not None


def normalised(value: str) -> str:
    """A local reference in the form of document names. A `?` and what follows it stay, and so do `.` and `..`: the desk joins."""
    path, number_sign, fragment = value.partition("#")
    path, question, query = path.partition("?")
    return encoded(decoded(path)) + question + query + number_sign + (decoded(fragment) if "%" in fragment else fragment)


def joined(name: str, path: str) -> str | None:
    """The name to which a path leads that stands in the document of this name; none if it leads out of FOLDER or to it."""
    if not path:
        return name
    if path.startswith("/"):
        return None
    segments = name.split("/")[:-1]
    for segment in path.split("/"):
        if segment == "..":
            if not segments:
                return None
            segments.pop()
        elif segment not in ("", "."):
            segments.append(segment)
    return "/".join(segments) or None


def split(value: str) -> tuple[str, str]:
    """The path and the fragment of a normalised reference, without its query."""
    path, _, fragment = value.partition("#")
    return path.partition("?")[0], fragment


def is_too_long(name: str) -> bool:
    return len(name.encode("utf-8")) > LONGEST
