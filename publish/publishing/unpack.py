"""The command `unpack`: the pages of a batch's transcript, in a folder."""
from __future__ import annotations

import os
import pathlib
import re
import sys
from collections.abc import Sequence

from publishing import command, rows
from publishing.message import Stop, counted
from publishing.output import Output
from publishing.transcript import Entry

HOW = """Writes the pages of a transcript of the desk's mode `batch` into a folder, byte for byte.

    unpack TRANSCRIPT OUT          the pages of each finished build, as OUT/bN/PAGE, where N is the number of its request
    unpack TRANSCRIPT OUT BUILD    the pages of the build with this number, as OUT/PAGE

OUT is replaced as a whole, and only if it is new, empty, or made by the tools of this folder; what they did not make stays. The status is
2 if nothing is written; OUT is then as it was."""


def asked_builds(transcript: rows.Transcript, number: str | None) -> list[Entry]:
    """The finished builds of a transcript, or the one that has a number."""
    built = transcript.built()
    if number is None:
        if not built:
            raise rows.Unread("no build of it is finished, so it has no pages")
        return built
    found = [entry for entry in built if str(entry.number) == number]
    if not found:
        others = ", ".join(f"{entry.number}" for entry in built[:20]) + (", .." if len(built) > 20 else "")
        raise rows.Unread(f"request {number} is no finished build; the requests that are: {others or 'none'}")
    return found


def write(data: bytes, number: str | None, folder: pathlib.Path) -> str:
    """Writes the pages of a transcript below a folder, and says how many these are."""
    transcript = rows.read(data)
    builds = asked_builds(transcript, number)
    if number is not None:
        count = rows.write_pages(transcript, builds[0], folder)
    else:
        count = rows.write_builds(transcript, folder)
    return f"{counted(count, 'page')} of {counted(len(builds), 'build')}"


def unpack(path: pathlib.Path, out: pathlib.Path, number: str | None) -> None:
    """Unpacks, or stops with OUT as it was."""
    try:
        data = path.read_bytes()
    except OSError as error:
        raise Stop(f"{path}: {error.strerror}") from None
    output = Output(out, None, is_clean=False)
    try:
        with output:
            told = write(data, number, output.pages)
            output.put()
    except rows.Unread as fault:
        raise Stop(f"{path}: {fault}") from None
    except KeyboardInterrupt:
        if not output.is_put:
            raise
    command.say(f"{told} in {os.path.abspath(out)}", sys.stdout)


def main(words: Sequence[str]) -> int:
    """The status of a call."""
    if len(words) not in (2, 3) or words[0].startswith("-") or not all(re.fullmatch("[1-9][0-9]*", word) for word in words[2:]):
        print(HOW, file=sys.stderr)
        return command.NOTHING
    command.prepare()
    try:
        unpack(pathlib.Path(words[0]), pathlib.Path(words[1]), words[2] if len(words) == 3 else None)
        return command.PUBLISHED
    except Stop as stop:
        command.say(f"unpack: {stop}\nunpack: nothing is written", sys.stderr)
    except KeyboardInterrupt:
        command.say("unpack: interrupted: nothing is written", sys.stderr)
    return command.NOTHING
