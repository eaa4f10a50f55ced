"""What a live site tells on the terminal: a line for each build, and below it the faults that were not told before."""
from __future__ import annotations

import os
import time
from collections.abc import Callable, Collection, Iterable

from publishing import names
from publishing.message import Message, Stop, count_of, counted
from publishing.options import Options
from publishing.site import Change

KINDS = ("changed", "new", "removed")
NAMED = 3


def listed(paths: list[str]) -> str:
    """Some paths, the first of them by their names."""
    more = f" and {counted(len(paths) - NAMED, 'file')} more" if len(paths) > NAMED else ""
    return ", ".join(names.shown(path) for path in paths[:NAMED]) + more


class Terminal:
    """The lines of a call. `told` are the messages that stand."""

    def __init__(self, asked: Options, say: Callable[[str], None]) -> None:
        self.asked, self.say = asked, say
        self.told: set[Message] = set()

    def line(self, text: str) -> None:
        """A line with the time, unless the call is quiet."""
        if not self.asked.quiet:
            self.say(f"{time.strftime('%H:%M:%S')} {text}")

    def news(self, messages: Collection[Message]) -> list[Message]:
        """The messages that did not stand before. All of them stand from now on."""
        fresh = sorted(set(messages) - self.told)
        self.told = set(messages)
        return fresh

    def tell(self, messages: Iterable[Message]) -> None:
        for message in messages:
            self.say(str(message))

    def begin(self, pages: int, messages: Collection[Message], address: str) -> None:
        """The first pages are there."""
        self.tell(self.news(messages))
        if not self.asked.quiet:
            self.say(f"{counted(pages, 'page')} in {os.path.abspath(self.asked.out)}, {count_of(messages)}")
            self.say(f"{address} shows them; Ctrl-C ends")

    def built(self, saved: dict[str, str], change: Change, messages: Collection[Message]) -> None:
        """A build behind the first."""
        fresh = self.news(messages)
        new = f" ({len(fresh)} new)" if fresh else ""
        self.line(f"{self.what(saved)}: {counted(change.made, 'page')} made, {change.found:,} found again, {count_of(messages)}{new}")
        self.tell(fresh)

    def stopped(self, saved: dict[str, str], stop: Stop, messages: Collection[Message]) -> None:
        """A build that could not be made, or not be written."""
        fresh = sorted(set(messages) - self.told)
        self.told |= set(fresh)
        self.line(f"{self.what(saved)}: the pages stay as they were")
        self.tell(fresh)
        self.say(str(stop))

    def restarted(self, why: Exception) -> None:
        """A new desk is asked."""
        self.line(f"{why}: a new desk takes the folder, and makes all pages anew")

    def wrote(self, made: Iterable[str], gone: Iterable[str], pages: Collection[str]) -> None:
        """Names each file of OUT that was made or removed, if the call asks for that."""
        if self.asked.verbose:
            for path in sorted(made):
                self.say(f"{'page' if path in pages else 'copied'} {names.shown(str(self.asked.out / path))}")
            for path in sorted(gone):
                self.say(f"removed {names.shown(str(self.asked.out / path))}")

    def what(self, saved: dict[str, str]) -> str:
        """Which files were saved, by their paths below FOLDER, and what became of them."""
        base = os.path.join(self.asked.folder, "")
        by_kind = [(kind, sorted(path.removeprefix(base) for path, it in saved.items() if it == kind)) for kind in KINDS]
        return "; ".join(f"{listed(paths)} {kind}" for kind, paths in by_kind if paths)
