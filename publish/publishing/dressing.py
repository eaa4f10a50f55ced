"""The style of a call: its sheet, and how its pages are dressed; nothing of both, if the call wants none."""
from __future__ import annotations

from collections.abc import Callable

import style
from publishing.message import Stop
from publishing.options import Options


def sheet_of(asked: Options) -> bytes | None:
    """The bytes of the style sheet."""
    if asked.no_style:
        return None
    try:
        return style.sheet_bytes(asked.style)
    except OSError as error:
        raise Stop(f"{asked.style}: the style sheet can't be read: {error.strerror}") from None


def dresser(asked: Options, contents: bytes, terms: bytes | None = None) -> Callable[[bytes, str], bytes]:
    """What gives a page the link to the sheet, and the line to the contents and the index, by their titles."""
    if asked.no_style:
        return lambda page, path: page
    return lambda page, path: style.dress(page, path, contents, terms)
