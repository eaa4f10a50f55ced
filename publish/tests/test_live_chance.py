"""A live site: edits and signals at random.

LIVE_COUNT in the environment says how many of each are tried, LIVE_SEED which ones, and with LIVE_DESK=found the desk is the program that
is found."""
from __future__ import annotations

import os
import pathlib
import random
import re
import shutil
import signal
import time

from cases import TOOL, map_of, topic
from live_cases import GIVEN, SECONDS, Live, serving
from publishing.output import MARKER

COUNT = int(os.environ.get("LIVE_COUNT", "12"))
SEED = int(os.environ.get("LIVE_SEED", random.randrange(10**6)))


class Chance(Live):
    """Edits and signals at random."""

    def setUp(self) -> None:
        super().setUp()
        if os.environ.get("LIVE_DESK") == "found":
            os.environ.pop("DITA_DESK")
            os.environ.update({"DITA_DESK": GIVEN} if GIVEN else {})
        self.chance = random.Random(SEED)
        for number in range(6):
            self.put({f"{'a/' if number % 2 else ''}t{number}.dita": self.topic(f"t{number}")})
        self.put({"p/a.png": b"a", "m.ditamap": map_of("t0.dita", "a/t1.dita", "t2.dita"), "n.ditamap": map_of("a/t3.dita")})

    def topic(self, name: str) -> str:
        """A topic that leads elsewhere."""
        number = self.chance.randrange(100)
        others = "".join(f"<xref href='/{it}'/><xref href='{it}'/>" for it in self.chance.sample(self.names(), min(2, len(self.names()))))
        picture = self.chance.choice(["", "<image href='p/a.png'/>", "<image href='a.png'/>"])
        return topic(f"<p id='p'>Edit {number}<ph conref='t2.dita#t2/p'/></p>{picture}<p>{others}</p>", name, self.chance.choice(["A", "B"]))

    def names(self) -> list[str]:
        return sorted(path.relative_to(self.docs).as_posix() for path in self.docs.rglob("*.dita"))

    def change(self) -> None:
        """One edit, renaming or removal."""
        kind, names = self.chance.choice(["edit"] * 4 + ["map", "rename", "remove", "new", "picture", "broken"]), self.names()
        name = self.chance.choice(names) if names else "t0.dita"
        if kind == "map":
            maps = [f"<topicref href='{it}'/>" for it in self.chance.sample(names, len(names) // 2)] + ["<mapref href='n.ditamap'/>"]
            self.put({self.chance.choice(["m.ditamap", "n.ditamap"]): f"<map><title>{self.chance.choice('MN')}</title>{''.join(maps)}</map>"})
        elif kind in ("edit", "new"):
            name = name if kind == "edit" else f"{self.chance.choice(['', 'a/'])}t{self.chance.randrange(12)}.dita"
            self.put({name: self.topic(pathlib.Path(name).stem)})
        elif kind == "rename" and names:
            os.rename(self.docs / name, self.docs / f"t{self.chance.randrange(12)}.dita")
        elif kind == "remove" and names:
            (self.docs / name).unlink()
        elif kind == "picture":
            self.put({self.chance.choice(["p/a.png", "a.png", "a/a.png"]): bytes([self.chance.randrange(256)])})
        elif kind == "broken":
            self.put({name: "<topic id='x'>"})
            time.sleep(self.chance.choice([0, 0.2]))
            self.put({name: self.topic(pathlib.Path(name).stem)})

    def settle(self) -> None:
        """Waits until a last change of the map is published, and with it all before it."""
        mark = f"mark{self.chance.randrange(10**9)}"
        text = (self.docs / "m.ditamap").read_text()
        self.put({"m.ditamap": re.sub("<title>[^<]*", f"<title>{mark}", text)})
        until = time.monotonic() + SECONDS
        while mark not in self.page("index.html"):
            self.assertLess(time.monotonic(), until, f"seed {SEED}: the last change is not published")
            time.sleep(0.05)

    def test_random_edits_leave_out_as_a_fresh_call_does(self):
        site = self.live({})
        site.begun()
        for count in range(COUNT):
            with self.subTest(seed=SEED, count=count):
                for _ in range(self.chance.choice([1, 1, 2, 5])):
                    self.change()
                if count % 4 == 3 or count == COUNT - 1:
                    self.settle()
                    self.assert_fresh()
        self.assert_ended(site)

    def test_signals_at_random_times_leave_out_whole(self):
        self.assertEqual(self.call("docs", "m.ditamap", "out").status, 0)
        for count in range(COUNT):
            with self.subTest(seed=SEED, count=count):
                (self.docs / "t0.dita").write_text(self.topic("t0"))
                site = self.live({})
                self.wait_until_signals_are_heeded(site.call.pid)
                end = time.monotonic() + self.chance.choice([0.3, 1.2]) * self.chance.random() * 2
                while time.monotonic() < end and site.call.poll() is None:
                    (self.docs / "t2.dita").write_text(self.topic("t2"))
                    time.sleep(self.chance.random() * 0.2)
                number = self.chance.choice([signal.SIGINT, signal.SIGTERM, signal.SIGHUP, signal.SIGKILL])
                status, errors = site.end(number)
                self.assertNotIn(str(TOOL), errors)
                self.assertIn(status, (-signal.SIGKILL,) if number == signal.SIGKILL else (0, 2, -number), errors)
                self.assert_whole(number)

    def wait_until_signals_are_heeded(self, process: int) -> None:
        """Waits until a call has begun: before that Python itself answers a signal."""
        until, caught = time.monotonic() + SECONDS, 0
        while not caught >> (signal.SIGTERM - 1) & 1:
            self.assertLess(time.monotonic(), until)
            time.sleep(0.01)
            status = pathlib.Path(f"/proc/{process}/status").read_text()
            caught = int(re.search("^SigCgt:\\s*([0-9a-f]+)$", status, re.MULTILINE)[1], 16)

    def assert_whole(self, number: int) -> None:
        """No process is left, nothing beside OUT unless the call was killed, and each page ends as a page does."""
        for _ in range(100):
            left = [it for it in serving(self.root) if it != os.getpid()]
            if not left:
                break
            time.sleep(0.05)
        self.assertEqual(left, [])
        beside = [it for it in self.left() if it != "out"]
        if number == signal.SIGKILL:
            for name in beside:
                shutil.rmtree(self.root / name)
        else:
            self.assertEqual(beside, [])
        there = self.tree()
        listed = set((self.out / MARKER).read_text().split("\n")[1:-1])
        files = {path for path, data in there.items() if data != b"/" and path != MARKER}
        self.assertEqual((files - listed, listed - files if number != signal.SIGKILL else set()), (set(), set()))
        for path in files:
            if path.endswith(".html"):
                self.assertTrue(there[path].endswith(b"</html>\n"), path)
