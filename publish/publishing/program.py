"""Which program the desk is: one that was built here from these sources, else the release."""
from __future__ import annotations

import hashlib
import os
import pathlib
import re
import shlex
import subprocess
from collections.abc import Iterator

from publishing.message import Stop

TOP = pathlib.Path(__file__).resolve().parent.parent.parent
VARIABLE = "DITA_DESK"
NAME = "dita_desk"
SOURCES = (".rt", ".antt")
MODES = re.compile(rb"<MODE>[^\[]*\[possible values: ([a-z, ]+)\]")
HELP_SECONDS = 20


def crates_of(text: str) -> dict[str, list[str]]:
    """What each crate stands on, by the lines of `crates.txt`."""
    crates = {}
    for line in text.splitlines():
        if line.split("#")[0].strip():
            head, _, below = line.split("#")[0].partition(":")
            crates[head.split()[0]] = below.split()
    return crates


def below(crates: dict[str, list[str]], name: str) -> list[str]:
    """A crate and all of the repository that it stands on, in an order in which each stands behind those below it."""
    found: list[str] = []

    def visit(it: str) -> None:
        for other in crates[it]:
            if other in crates and other not in found:
                visit(other)
        if it not in found:
            found.append(it)

    visit(name)
    return found


def source_files(top: pathlib.Path, crates: list[str]) -> Iterator[pathlib.Path]:
    for crate in crates:
        for place, folders, files in os.walk(top / "crates" / crate):
            folders[:] = sorted(name for name in folders if name != "out")
            yield from (pathlib.Path(place, name) for name in sorted(files) if name.endswith(SOURCES))


def is_of_these_sources(top: pathlib.Path, program: pathlib.Path) -> bool:
    """Whether a program was built here behind the last change of a source on which it stands."""
    try:
        made = program.stat().st_mtime
        crates = below(crates_of((top / "crates.txt").read_text(encoding="utf-8")), NAME)
        return os.access(program, os.X_OK) and all(path.stat().st_mtime <= made for path in source_files(top, crates))
    except (OSError, KeyError):
        return False


def checked_release(folder: pathlib.Path) -> pathlib.Path:
    """The program of the release, if it is the one of which the checksum was taken."""
    program, sum_file = folder / NAME, folder / f"{NAME}.sha256"
    try:
        wanted = sum_file.read_text(encoding="ascii").split()[0]
        came = hashlib.sha256(program.read_bytes()).hexdigest()
    except (OSError, ValueError, IndexError) as error:
        raise Stop(f"{folder}: the release can't be read: {error}") from None
    if came != wanted:
        raise Stop(f"{program}: this is not the program of {sum_file.name}: fetch the release anew")
    return program


def find(top: pathlib.Path = TOP) -> list[str]:
    """The words that start the program; Stop says what to do where there is none."""
    if given := os.environ.get(VARIABLE):
        return shlex.split(given)
    built = top / "crates" / NAME / "out" / NAME
    if built.is_file() and is_of_these_sources(top, built):
        return [str(built)]
    if (top / "release" / NAME).is_file():
        return [str(checked_release(top / "release"))]
    raise Stop("there is no program here: release/ has none, and none is built from these sources; `tools/build` proves and builds it")


def modes(words: list[str]) -> list[str]:
    """The modes of the program that these words start, by its help; none if it has no such help."""
    try:
        ended = subprocess.run([*words, "--help"], stdin=subprocess.DEVNULL, capture_output=True, timeout=HELP_SECONDS)
    except (OSError, subprocess.TimeoutExpired):
        return []
    found = MODES.search(ended.stdout)
    return found[1].decode("ascii").split(", ") if found else []
