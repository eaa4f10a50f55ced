"""The files beside the pages: pictures, PDFs, downloads. Only those to which a page leads are copied."""
from __future__ import annotations

import os
import pathlib
import shutil
from collections.abc import Iterable

from publishing.message import Stop
from publishing.pages import Page


def targets(pages: dict[str, Page]) -> set[str]:
    """The files to which pages lead, whether or not they are there."""
    return {link.path for page in pages.values() for link in page.links if link.path is not None and link.path not in pages}


def wanted(folder: pathlib.Path, pages: dict[str, Page]) -> list[str]:
    """The files of FOLDER to which pages lead, by their paths."""
    return sorted(path for path in targets(pages) if os.path.isfile(folder / path))  # no name is too long for this one


def copy(folder: pathlib.Path, paths: Iterable[str], to: pathlib.Path) -> None:
    """Copies files to the same paths below another folder."""
    for path in paths:
        target = to / path
        try:
            target.parent.mkdir(parents=True, exist_ok=True)
            shutil.copy2(folder / path, target)
        except OSError as error:
            raise Stop(f"{folder / path}: the file can't be copied: {error.strerror}") from None
