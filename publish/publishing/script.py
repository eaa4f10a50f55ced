"""The script that has the desk store documents and build a map."""
from __future__ import annotations

from collections.abc import Iterable, Sequence

from publishing.document import Document


def in_order(documents: Iterable[Document]) -> list[Document]:
    """Documents by the bytes of their names."""
    return sorted(documents, key=lambda it: it.name.encode("utf-8"))


def script_of(documents: Sequence[Document], asked: Sequence[str]) -> bytes:
    """The script over these documents, in this order; `asked` is the map, and perhaps a DITAVAL."""
    parts = []
    for document in documents:
        parts += [f"1 put {document.name}", *document.parts, "."]
    return "\n".join([*parts, "1 build " + " ".join(asked), ""]).encode("utf-8")
