"""The words of the command, and what they ask for."""
from __future__ import annotations

import argparse
import dataclasses
import os
import pathlib
from collections.abc import Sequence

VERSION = "publish 1.0 (dita_desk 0.1.0)"
MAP_ENDINGS = (".ditamap", ".bookmap")
MOST_WORKERS = 16

DESCRIPTION = """Publishes DITA 1.3 documents as HTML.

  publish docs manual.ditamap pages               the pages of docs/manual.ditamap, into the folder `pages`
  publish -m docs/manual.ditamap -o pages         the same
  publish --live docs manual.ditamap pages        the same again and again, whenever a file is saved
  publish docs manual.ditamap pages pro.ditaval   filtered and flagged"""

EPILOG = """What the map reaches is published; what is wrong with it is told by file, line and column, and the rest is published
nevertheless. The status is 0 if the pages are there, 1 if they are there with faults and --strict is given, and 2 if nothing is
published; OUT is then as it was."""


@dataclasses.dataclass(frozen=True)
class Options:
    """What a call asks for. `folder` is the root of all names; `map` and `filter` are paths as given."""

    folder: pathlib.Path
    map: pathlib.Path
    out: pathlib.Path
    filter: pathlib.Path | None
    index: bool
    workers: int
    strict: bool
    clean: bool
    style: pathlib.Path | None
    no_style: bool
    keep: pathlib.Path | None
    quiet: bool
    verbose: bool
    live: bool = False
    port: int = 0


class BadWords(Exception):
    """Why the words ask for nothing that can be done."""


class Parser(argparse.ArgumentParser):
    """A parser that raises BadWords where argparse would end the program."""

    def error(self, message: str) -> None:
        raise BadWords(f"{message}; `publish --help` says how")


def processors() -> int:
    """How many workers can work at a time here, at most 16."""
    count = len(os.sched_getaffinity(0)) if hasattr(os, "sched_getaffinity") else os.cpu_count() or 1
    return min(count, MOST_WORKERS)


def workers(word: str) -> int:
    """The number of workers that a word is."""
    if not word.isascii() or not word.isdecimal() or not 1 <= int(word) <= MOST_WORKERS:
        raise argparse.ArgumentTypeError(f"`{word}` is no number from 1 to {MOST_WORKERS}")
    return int(word)


def port(word: str) -> int:
    """The port that a word is."""
    if not word.isascii() or not word.isdecimal() or int(word) > 65_535:
        raise argparse.ArgumentTypeError(f"`{word}` is no number from 0 to 65535")
    return int(word)


def parser() -> Parser:
    it = Parser(prog="publish", description=DESCRIPTION, epilog=EPILOG, allow_abbrev=False,
                usage="publish [OPTIONS] [FOLDER MAP OUT [DITAVAL]]", formatter_class=argparse.RawDescriptionHelpFormatter)
    it.add_argument("words", nargs="*", metavar="FOLDER MAP OUT [DITAVAL]", help="the same by position")
    it.add_argument("-i", "--input", type=pathlib.Path, metavar="FOLDER", help="the folder of the documents; else that of MAP")
    it.add_argument("-m", "--map", type=pathlib.Path, metavar="MAP", help="the map; else the one map that FOLDER has")
    it.add_argument("-o", "--out", type=pathlib.Path, metavar="OUT", help="the folder of the pages; else `out`")
    it.add_argument("--filter", type=pathlib.Path, metavar="DITAVAL", help="filters and flags by this DITAVAL, which may lie anywhere")
    it.add_argument("--index", action="store_true", help="makes an index of the index terms, as the page terms.htm")
    it.add_argument("--workers", type=workers, default=processors(), metavar="N",
                    help="makes pages on so many threads, 1 to 16; else on as many as there are processors. An index is made on one")
    it.add_argument("--strict", action="store_true", help="with faults the status is 1")
    it.add_argument("--clean", action="store_true", help="removes from OUT what this tool did not make")
    style = it.add_mutually_exclusive_group()
    style.add_argument("--style", type=pathlib.Path, metavar="FILE", help="a style sheet in the place of the tool's own")
    style.add_argument("--no-style", action="store_true", help="leaves the pages as the desk made them")
    it.add_argument("--keep", type=pathlib.Path, metavar="FOLDER", help="leaves the script and the transcript of the desk there")
    loud = it.add_mutually_exclusive_group()
    loud.add_argument("-q", "--quiet", action="store_true", help="tells what is wrong and nothing else")
    loud.add_argument("-v", "--verbose", action="store_true", help="names each file")
    it.add_argument("--live", action="store_true",
                    help="stays, publishes again what is saved, and shows the pages in a browser, until Ctrl-C")
    it.add_argument("--port", type=port, metavar="N", help="with --live: the port of 127.0.0.1 at which the pages are shown; else a free one")
    it.add_argument("--version", action="version", version=VERSION)
    return it


def by_position(given: argparse.Namespace) -> None:
    """Puts words without an option where their option is."""
    if len(given.words) > 4:
        raise BadWords(f"too many words: {' '.join(given.words)}; `publish --help` says how")
    for name, word in zip(("input", "map", "out", "filter"), given.words):
        if getattr(given, name) is not None:
            raise BadWords(f"`{word}` and an option both name the same: --{name}; `publish --help` says how")
        setattr(given, name, pathlib.Path(word))


def only_map(folder: pathlib.Path) -> pathlib.Path:
    """The one map of a folder, for a call that names none."""
    try:
        maps = sorted(path for path in folder.iterdir() if path.suffix in MAP_ENDINGS and path.is_file())
    except OSError as error:
        raise BadWords(f"{folder}: {error.strerror}") from None
    if len(maps) != 1:
        found = ", ".join(path.name for path in maps) or "none"
        raise BadWords(f"{folder}: which map? Name it by `-m`; the maps of this folder: {found}")
    return maps[0]


def inside(folder: pathlib.Path, path: pathlib.Path) -> pathlib.Path:
    """A path that is seen from FOLDER, as by position, or from where the command is called."""
    return folder / path if not path.is_absolute() and ((folder / path).exists() or not path.exists()) else path


NOT_LIVE = {"index": "an index is made by a mode of the desk that serves no sessions", "strict": "its status is 0 if it was ended by Ctrl-C",
            "keep": "a live site has no script and no transcript"}


def check_live(given: argparse.Namespace) -> None:
    """Refuses options that have no meaning with --live, or without it."""
    for name, why in NOT_LIVE.items():
        if given.live and getattr(given, name):
            raise BadWords(f"--{name} can't stand beside --live: {why}")
    if given.port is not None and not given.live:
        raise BadWords("--port stands beside --live alone; `publish --help` says how")


def read(words: Sequence[str]) -> Options:
    """What the words ask for; BadWords says why it is nothing. `--help` and `--version` end the program with 0."""
    given = parser().parse_args(list(words))
    by_position(given)
    check_live(given)
    if given.input is None:
        folder = given.map.parent if given.map is not None else pathlib.Path(".")
        map_path = given.map if given.map is not None else only_map(folder)
    else:
        folder = given.input
        if not folder.is_dir():
            raise BadWords(f"{folder}: there is no such folder")
        map_path = inside(folder, given.map) if given.map is not None else only_map(folder)
    filter_path = inside(folder, given.filter) if given.filter is not None else None
    return Options(folder, map_path, given.out or pathlib.Path("out"), filter_path, given.index, given.workers, given.strict,
                   given.clean, given.style, given.no_style, given.keep, given.quiet, given.verbose, given.live, given.port or 0)
