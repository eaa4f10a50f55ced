"""The map and the DITAVAL of a call."""
from __future__ import annotations

import pathlib
import posixpath

from publishing import closure, names
from publishing.message import Stop
from publishing.options import Options


def roots_of(asked: Options, sources: closure.Sources) -> list[str]:
    """Their names; Stop says why there are none."""
    found = []
    for path in (asked.map, asked.filter):
        if path is not None:
            name = sources.name_of(str(path))
            if not path.is_file():
                raise Stop(no_such(asked, path))
            found.append(name)
    if found[0].startswith(closure.OUTSIDE):
        raise Stop(f"{asked.map}: the map does not lie in {asked.folder}: name a folder around it by -i")
    return found


def no_such(asked: Options, path: pathlib.Path) -> str:
    """That a file of the call is not there, and which of its kind are."""
    if path.is_dir():
        return f"{path}: is a folder and no file"
    ending = path.suffix
    others = [it for it in closure.files_below(asked.folder) if posixpath.splitext(it)[1] == ending]
    return f"{path}: there is no such file; the files of {asked.folder} that end in {ending or 'nothing'}: " \
           f"{names.shown(', '.join(others[:20])) or 'none'}{', ..' if len(others) > 20 else ''}"
