"""The command as a whole: reads its words, publishes what they ask for, and gives the status."""
from __future__ import annotations

import os
import signal
import sys
from collections.abc import Sequence
from typing import TextIO

from publishing import options
from publishing.interrupts import SIGNALS
from publishing.live import Live
from publishing.message import Stop
from publishing.publication import Publication

PUBLISHED, FAULTY, NOTHING = 0, 1, 2


def interrupt(_number: int, _frame: object) -> None:
    """Interrupts the call, once: what comes behind that does not disturb the clearing up."""
    for number in SIGNALS:
        signal.signal(number, signal.SIG_IGN)
    raise KeyboardInterrupt


def say(text: str, stream: TextIO | None) -> None:
    """Writes a line, if somebody still reads; a stream that fails is left alone from then on."""
    if stream is None:
        return
    try:
        print(text, file=stream, flush=True)
    except OSError as error:
        os.dup2(os.open(os.devnull, os.O_WRONLY), stream.fileno())
        if stream is not sys.stderr and not isinstance(error, BrokenPipeError):
            say(f"publish: standard output: {error.strerror}", sys.stderr)


def publish(asked: options.Options) -> int:
    """Publishes, and tells what is wrong."""
    publication = Publication(asked, lambda text: say(text, sys.stdout))
    try:
        publication.run()
    except KeyboardInterrupt:
        publication.progress.clear()
        publication.clear()
        if not publication.is_put:
            raise
        say("publish: interrupted, and the pages are there", sys.stderr)
    except Stop as stop:
        publication.progress.clear()
        for message in publication.messages():
            say(str(message), sys.stdout)
        say(f"publish: {stop}\npublish: nothing is published", sys.stderr)
        return NOTHING
    return FAULTY if asked.strict and publication.faults() else PUBLISHED


def publish_live(asked: options.Options) -> int:
    """Publishes again and again, until an interrupt."""
    site = Live(asked, lambda text: say(text, sys.stdout))
    try:
        site.run()
    except KeyboardInterrupt:
        if not site.is_put:
            raise
        if not asked.quiet:
            say(f"publish: ended; the pages are in {os.path.abspath(asked.out)}", sys.stderr)
    except Stop as stop:
        for message in site.messages():
            say(str(message), sys.stdout)
        so = "the pages are those of the last build" if site.is_put else "nothing is published"
        say(f"publish: {stop}\npublish: {so}", sys.stderr)
        return NOTHING
    return PUBLISHED


def prepare() -> None:
    """Has messages hold any text, and interrupts come as KeyboardInterrupt."""
    for stream in (sys.stdout, sys.stderr):
        if stream is not None:
            stream.reconfigure(errors="backslashreplace")
    for number in SIGNALS:
        if signal.getsignal(number) != signal.SIG_IGN:
            signal.signal(number, interrupt)


def main(words: Sequence[str]) -> int:
    """The status of a call."""
    prepare()
    try:
        asked = options.read(words)
        return publish_live(asked) if asked.live else publish(asked)
    except options.BadWords as refused:
        say(f"publish: {refused}", sys.stderr)
        return NOTHING
    except KeyboardInterrupt:
        say("publish: interrupted: nothing is published", sys.stderr)
        return NOTHING
