"""The desk as a server of one session: how it starts, at which port it listens, and that it never stays behind.

A shell stands between, which waits for the end of its standard input and then ends the desk. That end comes when the tool closes it, and
also when the tool is killed. The desk has a session of its own at the terminal, so what is typed there reaches the tool alone."""
from __future__ import annotations

import re
import select
import subprocess
import time

from publishing import desk, program, websocket
from publishing.interrupts import uninterrupted
from publishing.message import Stop

MODE = "serve"
LISTENING = re.compile(rb"^listening on 127\.0\.0\.1:([0-9]+)\n", re.MULTILINE)
SHELL = '"$@" </dev/null & read line; kill -9 $! 2>/dev/null; wait $! 2>/dev/null'
SIGNALLED = 128
START_SECONDS = 20
END_SECONDS = 0.5
LINES_MOST = 1 << 16


def check(words: list[str]) -> None:
    """Stops if the program that these words start can't serve sessions."""
    if MODE not in program.modes(words):
        raise Stop(f"{words[0]}: --live needs a program with the mode `{MODE}`, and this one is older, or does not start: `tools/build` "
                   "proves and builds one")


class Server:
    """A desk with nothing stored, and its one session over `link`."""

    def __init__(self, words: list[str], workers: int) -> None:
        call = [*words, MODE, "--port", "0", "--connections", "1", "--workers", str(workers)]
        self.process: subprocess.Popen[bytes] | None = None
        self.errors = b""
        try:
            with uninterrupted():
                self.process = subprocess.Popen(["/bin/sh", "-c", SHELL, "sh", *call], stdin=subprocess.PIPE, stdout=subprocess.DEVNULL,
                                                stderr=subprocess.PIPE, bufsize=0, start_new_session=True)
            self.link = websocket.connect(self.port())
        except websocket.Broken as broken:
            raise Stop(self.why(broken)) from None
        except BaseException:
            self.end()
            raise

    def port(self) -> int:
        """The port that the desk tells once it listens."""
        until = time.monotonic() + START_SECONDS
        while self.hear(until - time.monotonic()):
            if found := LISTENING.search(self.errors):
                return int(found[1])
        raise websocket.Broken("it does not say where it listens")

    def hear(self, seconds: float) -> bool:
        """Takes in what the desk says on standard error; whether it may say more."""
        stream = self.process.stderr if self.process is not None else None
        if stream is None or not select.select([stream], [], [], max(0.0, seconds))[0]:
            return False
        data = stream.read(LINES_MOST)
        self.errors = (self.errors + (data or b""))[-LINES_MOST:]
        return bool(data)

    def why(self, broken: websocket.Broken) -> str:
        """What is told of a connection that broke; the desk has ended then."""
        until = time.monotonic() + END_SECONDS
        while self.hear(until - time.monotonic()):
            pass
        lines = LISTENING.sub(b"", self.errors).decode("utf-8", "replace")
        status = self.end()
        if status in (0, SIGNALLED + 9) and not lines.strip():
            return f"the desk: {broken}"
        return desk.why(SIGNALLED - status if status > SIGNALLED else status, "", lines)

    def end(self) -> int:
        """Ends the desk, and gives its status."""
        if self.process is None:
            return 0
        with uninterrupted():
            for stream in (self.process.stdin, self.process.stderr):
                if stream is not None:
                    stream.close()
            return self.process.wait()
