"""Which files changed, by looks at their size and the time of their last change.

A file counts as saved if two looks in a row find the same that is not what was known: so one that is being written is not read yet."""
from __future__ import annotations

import os
import time
from collections.abc import Iterable

Stamp = tuple[int, ...] | None
INTERVAL = 0.05
SHARE = 5  # a look takes at most such a part of the time between two
PATIENCE = 1.0


def stamp_of(path: str) -> Stamp:
    """What a look finds of a file; none if it is not there."""
    try:
        it = os.stat(path)
    except (OSError, ValueError):
        return None
    return it.st_size, it.st_mtime_ns, it.st_ino, it.st_mode


class Watcher:
    """The files that are watched, each with what is known of it. `open` has those that the last look found otherwise, `saved` what
    became of those that two looks did, and `waiting` is since when one waits for others."""

    def __init__(self) -> None:
        self.known: dict[str, Stamp] = {}
        self.open: dict[str, Stamp] = {}
        self.saved: dict[str, str] = {}
        self.waiting = 0.0

    def add(self, path: str) -> None:
        """Watches a file from now on; what is read of it must be read behind this call."""
        if path not in self.known:
            self.known[path] = stamp_of(path)

    def keep(self, paths: Iterable[str]) -> None:
        """Watches these of the files, and no others any more."""
        wanted = set(paths)
        for path in [it for it in self.known if it not in wanted]:
            del self.known[path]
            self.open.pop(path, None)

    def look(self) -> None:
        """Looks at each file once."""
        still: dict[str, Stamp] = {}
        for path, known in self.known.items():
            found = stamp_of(path)
            if found == known:
                continue
            if path in self.open and self.open[path] == found:
                self.known[path] = found
                self.saved[path] = "new" if known is None else "removed" if found is None else "changed"
            else:
                still[path] = found
        self.open = still

    def changed(self, now: float) -> dict[str, str]:
        """The files that were saved, each with what became of it, once no other one is being written, or a second has passed."""
        if not self.saved:
            return {}
        self.waiting = self.waiting or now
        if self.open and now - self.waiting < PATIENCE:
            return {}
        found, self.saved, self.waiting = self.saved, {}, 0.0
        return found

    def wait(self) -> dict[str, str]:
        """Looks again and again, at most twenty times a second, until files were saved."""
        while True:
            began = time.monotonic()
            self.look()
            if found := self.changed(began):
                return found
            took = time.monotonic() - began
            time.sleep(max(INTERVAL - took, SHARE * took - took, 0))
