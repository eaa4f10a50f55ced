"""The check of `examples/together`, on its transcript and on wrong ones. New runs are made by `examples/together/run`."""
import runpy
import subprocess
import sys

from cases import TOOL, TOP, Case
from publishing import program, rows

FOLDER = TOP / "examples" / "together"
sys.path.append(str(FOLDER))

import together  # noqa: E402  (the line above makes it importable)

RUN = runpy.run_path(str(FOLDER / "run"), run_name="run")


class Together(Case):
    def test_the_transcript_that_stands_there(self):
        self.assertEqual(list(RUN["stored_faults"](program.find())), [])

    def test_two_pages_that_are_exchanged_are_refused(self):
        """Each row keeps its line, which tells its part, and has the bytes of another one: of the same length in lines."""
        stored = RUN["STORED"]
        transcript = rows.read(stored)
        for number, other in ((5, 6), (6, 7), (7, 9), (3, 8)):
            first, second = transcript.rows[number], transcript.rows[other]
            data = b"".join([stored[:first.start], stored[second.start:second.end], stored[first.end:second.start],
                             stored[first.start:first.end], stored[second.end:]])
            self.assertEqual(rows.read(data).page_bytes(number), transcript.page_bytes(other))
            found = RUN["check"](program.find(), data)
            for row in (number, other):
                self.assertTrue(any(f"row {row} has not the bytes of this page at this place" in fault for fault in found), found)

    def test_each_mistake_is_refused(self):
        self.assertEqual(list(RUN["mistake_faults"](program.find())), [])

    def test_unpack_gives_the_pages_of_the_mode_clean(self):
        """The build of the entry at place P is there the build P + 1: the requests come in the order of the transcript."""
        ended = subprocess.run([sys.executable, str(TOOL / "unpack"), str(FOLDER / "transcript"), "out"], cwd=self.root, capture_output=True)
        self.assertEqual(ended.returncode, 0, ended)
        entries = rows.read(RUN["STORED"]).entries
        together.clean_run(program.find(), together.requests_of(RUN["SCRIPT"]), entries, self.root / "clean")
        for entry in entries:
            if entry.reply[0] == "built":
                self.assertEqual(self.pages(f"out/b{entry.number}"), self.pages(f"clean/b{entry.place + 1}"))
        self.assertEqual(len(self.pages()), 14)
