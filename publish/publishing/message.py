"""What the tool tells of the sources: a place and a sentence."""
from __future__ import annotations

import dataclasses
from collections.abc import Collection


@dataclasses.dataclass(frozen=True, order=True)
class Message:
    """A sentence about a file. Line and column count from 1, and 0 means that there is none. A warning makes no status 1."""

    path: str
    line: int
    column: int
    sentence: str
    code: str = ""
    is_warning: bool = False

    @property
    def place(self) -> str:
        """`file:line:column`, as far as it is known."""
        return ":".join([self.path, *(str(number) for number in (self.line, self.column) if number)])

    def __str__(self) -> str:
        warning = "warning: " if self.is_warning else ""
        code = f" ({self.code})" if self.code else ""
        return f"{self.place}: {warning}{self.sentence}{code}"


class Stop(Exception):
    """Why nothing is published."""


def counted(count: int, one: str) -> str:
    """`1 page`, `2,000 pages`."""
    return f"{count:,} {one}{'' if count == 1 else 's'}"


def count_of(messages: Collection[Message]) -> str:
    """`2 faults`, `1 fault, 3 warnings`."""
    warnings = sum(message.is_warning for message in messages)
    return counted(len(messages) - warnings, "fault") + (f", {counted(warnings, 'warning')}" if warnings else "")
