"""What the tests of live sites share: a call with `--live` that runs, the lines that it tells, and a test with the desk of `serve_desk.py`."""
from __future__ import annotations

import os
import pathlib
import re
import shutil
import signal
import subprocess
import sys
import threading
import time

from cases import PUBLISH, TOOL, Case, map_of, topic

DESK = f"{sys.executable} {TOOL / 'tests' / 'serve_desk.py'}"
SECONDS = 180
GIVEN = os.environ.get("DITA_DESK")  # what the tests as a whole were given
FILES = {"m.ditamap": map_of("t.dita", "b/u.dita"), "t.dita": topic("<image href='p/a.png'/>"), "b/u.dita": topic("<p>One</p>", "u", "U"),
         "p/a.png": b"a"}


def heed_signals() -> None:
    for number in (signal.SIGINT, signal.SIGTERM, signal.SIGHUP):
        signal.signal(number, signal.SIG_DFL)


class Site:
    """A call with `--live` that runs, and the lines that it told."""

    def __init__(self, root: pathlib.Path, *words: str, **how: object) -> None:
        given = {"cwd": root, "stdin": subprocess.DEVNULL, "stdout": subprocess.PIPE, "stderr": subprocess.PIPE, "text": True,
                 "preexec_fn": heed_signals, **how}
        self.call = subprocess.Popen([sys.executable, str(PUBLISH), "--live", *words], **given)
        self.lines: list[str] = []
        self.read = 0
        self.more = threading.Condition()
        self.thread = threading.Thread(target=self.listen, daemon=True)
        self.thread.start()

    def listen(self) -> None:
        for line in self.call.stdout:
            with self.more:
                self.lines.append(line.rstrip("\n"))
                self.more.notify_all()
        with self.more:
            self.lines.append("(the end)")
            self.more.notify_all()

    def until(self, pattern: str) -> list[str]:
        """Waits for a line in which a pattern is found; gives the lines behind those that were given before, this one last."""
        with self.more:
            before = self.read

            def is_there() -> bool:
                while self.read < len(self.lines):
                    self.read += 1
                    if re.search(pattern, self.lines[self.read - 1]):
                        return True
                return self.lines[-1:] == ["(the end)"]

            if not self.more.wait_for(is_there, SECONDS) or not re.search(pattern, self.lines[self.read - 1]):
                raise AssertionError(f"no line has `{pattern}`: {self.lines[before:]}")
            return self.lines[before:self.read]

    def begun(self) -> str:
        """Waits for the first pages; gives where they are shown."""
        return self.until("^http://127.0.0.1:[0-9]+/ shows them; Ctrl-C ends$")[-1].split(" ")[0]

    def end(self, number: int = signal.SIGINT) -> tuple[int, str]:
        """Ends the call by a signal; gives its status and what it said on standard error."""
        self.call.send_signal(number)
        self.call.wait(SECONDS)
        self.thread.join(SECONDS)
        errors = self.call.stderr.read()
        self.call.stdout.close()
        self.call.stderr.close()
        return self.call.returncode, errors


def serving(root: pathlib.Path) -> list[int]:
    """The processes that serve for a call whose environment names a folder."""
    found = []
    for entry in pathlib.Path("/proc").iterdir():
        try:
            if entry.name.isdecimal() and f"\0LIVE_ROOT={root}\0".encode() in b"\0" + (entry / "environ").read_bytes() + b"\0":
                if (entry / "stat").read_text().rpartition(")")[2].split()[0] != "Z":
                    found.append(int(entry.name))
        except OSError:
            continue
    return found


class Live(Case):
    """A test with the desk of `serve_desk`."""

    def setUp(self) -> None:
        super().setUp()
        before = dict(os.environ)
        self.addCleanup(lambda: (os.environ.clear(), os.environ.update(before)))
        os.environ.update({"DITA_DESK": DESK, "DESK_LOG": str(self.root.parent / f"{self.root.name}.log"), "LIVE_ROOT": str(self.root)})
        self.addCleanup(pathlib.Path(os.environ["DESK_LOG"]).unlink, missing_ok=True)

    def put(self, files: dict[str, str | bytes], folder: pathlib.Path | None = None) -> None:
        """Writes files, each beside its place, and renames it there: on a busy machine a look could else find it empty twice."""
        for name, data in files.items():
            path = (folder or self.docs) / name
            path.parent.mkdir(parents=True, exist_ok=True)
            fresh = path.with_name(f".{path.name}.fresh")
            fresh.write_bytes(data.encode("utf-8") if isinstance(data, str) else data)
            os.replace(fresh, path)

    def live(self, files: dict[str, str | bytes], *words: str, **how: object) -> Site:
        """A call that runs."""
        self.put(files)
        site = Site(self.root, "docs", "m.ditamap", "out", *words, **how)
        self.addCleanup(lambda: site.call.poll() is None and site.call.kill())
        return site

    def tree(self, folder: str = "out") -> dict[str, bytes]:
        """Each file of a folder, and its folders."""
        top = self.root / folder
        return {path.relative_to(top).as_posix(): path.read_bytes() if path.is_file() else b"/" for path in top.rglob("*")}

    def assert_fresh(self, *words: str) -> None:
        """OUT is what a fresh call leaves, and nothing stands beside it."""
        until = time.monotonic() + 5
        while any(it.startswith(".") for it in self.left()) and time.monotonic() < until:
            time.sleep(0.01)
        self.assertEqual([it for it in self.left() if it.startswith(".")], [])
        result = self.call("docs", "m.ditamap", "fresh", *words)
        self.assertEqual(result.status, 0, result)
        there, fresh = self.tree(), self.tree("fresh")
        shutil.rmtree(self.root / "fresh")
        self.assertEqual(sorted(there), sorted(fresh))
        self.assertEqual([path for path in fresh if there[path] != fresh[path]], [])

    def asked(self) -> list[str]:
        """The requests that the desk got since they were read last."""
        path = pathlib.Path(os.environ["DESK_LOG"])
        lines = path.read_text(encoding="utf-8").splitlines()
        path.write_text("")
        return lines

    def assert_ended(self, site: Site, number: int = signal.SIGINT) -> None:
        self.assertEqual(site.end(number), (0, f"publish: ended; the pages are in {self.out}\n"))
        self.assertEqual((self.left(), serving(self.root)), (["out"], [os.getpid()] if os.getpid() in serving(self.root) else []))
