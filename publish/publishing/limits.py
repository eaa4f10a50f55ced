"""The limits of the desk, and what is told where a folder is beyond one: which, how much there is, and where most of it lies."""
from __future__ import annotations

import collections
import pathlib

from publishing.closure import Sources
from publishing.message import Stop, counted

SCRIPT_BYTES = 64 << 20
DOCUMENTS = 10_000
PAGES = 4_096
NODES = 65_536


def mebibytes(count: int) -> str:
    return f"{count / (1 << 20):,.1f} MiB"


def most(weights: dict[str, int]) -> tuple[str, int]:
    """Where most lies: a document that has half of all or more, else the folder whose documents have most."""
    name = max(weights, key=lambda it: weights[it])
    if 2 * weights[name] >= sum(weights.values()):
        return name, weights[name]
    folders: collections.Counter[str] = collections.Counter()
    for it, weight in weights.items():
        folders[str(pathlib.PurePosixPath(it).parent)] += weight
    folder, weight = folders.most_common(1)[0]
    return (folder + "/" if folder != "." else "the folder itself"), weight


def check(sources: Sources, script_bytes: int) -> None:
    """Stops if the documents are more than the desk takes."""
    documents = sources.documents
    if len(documents) > DOCUMENTS:
        where, count = most({sources.shown(name): 1 for name in documents})
        raise Stop(f"{sources.folder}: the map reaches {counted(len(documents), 'document')}, and at most {DOCUMENTS:,} can be "
                   f"published together; most of them, {count:,}, lie in {where}: publish parts of the map one by one")
    if script_bytes > SCRIPT_BYTES:
        where, count = most({sources.shown(name): it.size() for name, it in documents.items()})
        raise Stop(f"{sources.folder}: the documents that the map reaches have {mebibytes(script_bytes)} as lines for the desk, and at "
                   f"most 64 MiB can be published together; most of it, {mebibytes(count)}, lies in {where}: publish parts of the map "
                   "one by one")


Scope = tuple[object, ...]


def included(sources: Sources, root: str) -> list[tuple[str, Scope]]:
    """The maps that a map includes, itself first, each as often as it is included (but not in itself), and its key scope."""
    found: list[tuple[str, Scope]] = []
    waiting: list[tuple[str, Scope, frozenset[str]]] = [(root, (), frozenset())]
    while waiting and len(found) <= NODES:
        name, scope, around = waiting.pop()
        document = sources.documents.get(name)
        if document is None or not document.is_map or name in around:
            continue
        found.append((name, scope))
        inside = around | {name}
        for reference in reversed(document.references):
            if reference.asks == "node" and reference.target in sources.documents:
                inner = (*scope, name, reference.keyscope) if any(reference.keyscope) else scope
                waiting.append((reference.target, inner, inside))
    return found


def nodes_of(sources: Sources, root: str) -> collections.Counter[str]:
    """How many nodes come of each map."""
    weights: collections.Counter[str] = collections.Counter()
    for name, _ in included(sources, root):
        weights[sources.shown(name)] += sources.documents[name].nodes
    return weights


def pages_of(sources: Sources, root: str) -> collections.Counter[str]:
    """How many pages come of each map: one of each document in each key scope, where it is named first. Branches may make more."""
    weights: collections.Counter[str] = collections.Counter()
    seen: set[tuple[str, Scope]] = set()
    for name, scope in included(sources, root):
        fresh = {(target, (*scope, name, place) if any(place) else scope) for target, place in sources.documents[name].pages} - seen
        seen |= fresh
        weights[sources.shown(name)] += len(fresh)
    return weights


def beyond(sources: Sources, root: str, reply: list[str]) -> str | None:
    """What is told of a build that the desk refused for a limit of maps or pages; none if that is not why."""
    if reply[0] == "toomanynodes":
        weights = nodes_of(sources, root)
        where, count = most(weights)
        return (f"the map has {weights.total():,} nodes or more with the maps that it includes, and at most {NODES:,} can be "
                f"published together; most of them, {count:,}, come of {where}: cut it into several maps")
    if reply[0] == "toomanypages":
        weights = pages_of(sources, root)
        where, count = most(weights)
        return (f"the map has {weights.total():,} pages or more with the maps that it includes, and at most {PAGES:,} can be "
                f"published together; most of them, {count:,}, come of {where}: cut it into several maps")
    if reply[0] == "toolarge":
        where, count = most({sources.shown(name): it.size() for name, it in sources.documents.items() if not it.is_map})
        return (f"the pages have {mebibytes(int(reply[1]))} together, and at most 256 MiB can be published together; of the "
                f"documents most, {mebibytes(count)} as lines, lies in {where}: cut the map into several maps")
    return None
