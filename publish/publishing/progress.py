"""One line on a terminal that tells the step and counts; nothing anywhere else."""
from __future__ import annotations

import sys
import time

CLEARED = "\r\033[K"
INTERVAL = 0.1


class Progress:
    """The line, on standard error if that is a terminal and the call is not quiet."""

    def __init__(self, is_quiet: bool) -> None:
        self.stream = sys.stderr
        self.is_on = not is_quiet and self.stream is not None and self.stream.isatty()
        self.last = 0.0

    def tell(self, text: str, is_now: bool = True) -> None:
        """Shows the text in place of the last. One that is not for now is left out if the last came a moment ago."""
        if self.is_on and (is_now or time.monotonic() - self.last > INTERVAL):
            self.last = time.monotonic()
            self.stream.write(CLEARED + text)
            self.stream.flush()

    def clear(self) -> None:
        if self.is_on:
            self.stream.write(CLEARED)
            self.stream.flush()
