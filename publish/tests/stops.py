#!/usr/bin/env python3
"""Stops `publish/publish` at random moments by signals, and looks at what stands there then: `publish/tests/stops.py [TRIES [SEED]]`.

So many times (100 if none is given) for each of SIGINT, SIGTERM and SIGKILL, over the handbook of `examples/manual` and over a project of
200 topics: OUT is byte for byte as it was before or as a whole call leaves it, the status says which, no process is left, and nothing
stands beside OUT. Only SIGKILL, which no program can answer, may leave the folder of work beside OUT. An interrupt goes to all processes
of the call, as a terminal sends it; the other signals go to the tool alone."""
from __future__ import annotations

import collections
import os
import pathlib
import random
import shutil
import signal
import subprocess
import sys
import tempfile
import time

HERE = pathlib.Path(__file__).resolve().parent
PUBLISH = HERE.parent / "publish"
MANUAL = HERE.parent.parent / "examples/manual/source"
SIGNALS = (signal.SIGINT, signal.SIGTERM, signal.SIGKILL)
SECONDS, LATEST = 60, 1.5
OLD = {"m.ditamap": "<map><title>Old</title><topicref href='old.dita'/></map>", "old.dita": "<topic id='old'><title>Old</title><body/></topic>"}


def heed_signals() -> None:
    """Has signals reach a call where those who started this one ignore them, as a job in the background does."""
    for number in (signal.SIGINT, signal.SIGTERM):
        signal.signal(number, signal.SIG_DFL)


def begin(words: list[str]) -> subprocess.Popen[bytes]:
    """A call of the tool in a session of its own."""
    quiet = {"stdin": subprocess.DEVNULL, "stdout": subprocess.DEVNULL, "stderr": subprocess.DEVNULL}
    return subprocess.Popen([sys.executable, str(PUBLISH), *words], start_new_session=True, preexec_fn=heed_signals, **quiet)


def files_of(folder: pathlib.Path) -> dict[str, bytes] | None:
    """The files of a folder by their paths; None if it is not there."""
    return {str(path.relative_to(folder)): path.read_bytes() for path in folder.rglob("*") if path.is_file()} if folder.is_dir() else None


def processes_of(session: int) -> list[str]:
    """The processes of a session that still run."""
    found = []
    for stat in pathlib.Path("/proc").glob("[0-9]*/stat"):
        try:
            words = stat.read_text().rpartition(")")[2].split()
        except OSError:
            continue
        if int(words[3]) == session and words[0] != "Z":
            found.append(stat.parent.name)
    return found


class Project:
    """A folder of documents with an OUT that another call made before, in a folder of its own."""

    def __init__(self, root: pathlib.Path, folder: pathlib.Path, map_name: str) -> None:
        self.root, self.place, self.old = root, root / "place", root / "old"
        self.out, self.words = self.place / "out", [str(folder), map_name, str(root / "place" / "out")]
        docs = root / "docs"
        docs.mkdir()
        self.place.mkdir()
        for name, text in OLD.items():
            (docs / name).write_text(text, encoding="utf-8")
        self.made([str(docs), "m.ditamap", str(self.out)])
        shutil.copytree(self.out, self.old)
        began = time.monotonic()
        self.made(self.words)
        self.seconds = time.monotonic() - began
        self.before, self.behind = files_of(self.old), files_of(self.out)

    def made(self, words: list[str]) -> None:
        if begin(words).wait(SECONDS) != 0:
            raise SystemExit(f"{words[0]} is not published")

    def stopped(self, number: signal.Signals, wait: float) -> tuple[str, list[str]]:
        """What a call left that this signal met after so many seconds: `before` or `behind`, and what is wrong."""
        shutil.rmtree(self.place)
        self.place.mkdir()
        shutil.copytree(self.old, self.out)
        call = begin(self.words)
        time.sleep(wait)
        if call.poll() is None:
            (os.killpg if number == signal.SIGINT else os.kill)(call.pid, number)
        status = call.wait(SECONDS)
        faults = [] if gone(call.pid) else ["a process is left"]
        now = files_of(self.out)
        came = "before" if now == self.before else "behind" if now == self.behind else "neither"
        if came == "neither":
            faults.append("OUT is not there" if now is None else f"OUT has {len(now)} files")
        if (status == 0 and came != "behind") or (status == 2 and came != "before"):
            faults.append(f"status {status} with OUT as {came}")
        beside = sorted(path.name for path in self.place.iterdir() if path.name != "out")
        if beside and number != signal.SIGKILL or any(not name.startswith(".out.publish-") for name in beside):
            faults.append(f"{beside} beside OUT")
        return came + (" and a folder beside" if beside else ""), faults


def gone(session: int) -> bool:
    """Whether the processes of a call end within some seconds."""
    end = time.monotonic() + 10
    while processes_of(session):
        if time.monotonic() > end:
            return False
        time.sleep(0.02)
    return True


def tried(project: Project, number: signal.Signals, tries: int, chance: random.Random) -> tuple[collections.Counter[str], list[str]]:
    """How so many stops at random moments ended, and what was wrong."""
    came: collections.Counter[str] = collections.Counter()
    faults = []
    for _ in range(tries):
        wait = chance.uniform(0, LATEST * project.seconds)
        how, wrong = project.stopped(number, wait)
        came[how] += 1
        faults += [f"{number.name} after {wait:.3f} s: {fault}" for fault in wrong]
    return came, faults


def main() -> None:
    tries = int(sys.argv[1]) if len(sys.argv) > 1 else 100
    seed = int(sys.argv[2]) if len(sys.argv) > 2 else random.randrange(10**6)
    print(f"stops: SEED={seed}")
    chance, count = random.Random(seed), 0
    with tempfile.TemporaryDirectory() as room:
        large = pathlib.Path(room) / "large"
        subprocess.run([sys.executable, str(HERE / "project.py"), str(large), "200"], check=True)
        for title, folder, map_name in (("the handbook", MANUAL, "manual.ditamap"), ("200 topics", large, "project.ditamap")):
            root = pathlib.Path(room) / map_name
            root.mkdir()
            project = Project(root, folder, map_name)
            for number in SIGNALS:
                came, faults = tried(project, number, tries, chance)
                count += len(faults)
                print(f"{title:14} {number.name:8} {tries} times within {LATEST * project.seconds:.2f} s: "
                      f"{', '.join(f'{times} {how}' for how, times in sorted(came.items()))}", *faults, sep="\n  ", flush=True)
    sys.exit(f"{count} faults" if count else 0)


if __name__ == "__main__":
    main()
