"""Pages on many threads: which mode of the desk is asked, that its pages are those of one thread, and what is told where it fails."""
import os
import subprocess
import sys
from unittest import mock

from batch_desk import HELP, NEW
from cases import TOOL, Case, map_of, topic
from publishing import options, program

FILES = {"m.ditamap": map_of("t.dita", "b/u.dita", "gone.dita"), "t.dita": topic("<p keyref='none'>x<indexterm>tap</indexterm></p>"),
         "b/u.dita": topic("<pre>|a\n|row 2 page m.ditamap - 0 1\nend 1 0 0</pre>", "u", "\u00dc")}
BATCH = f"{sys.executable} {TOOL / 'tests' / 'batch_desk.py'}"


class Desk(Case):
    """A test with the desk of `batch_desk`."""

    def setUp(self) -> None:
        super().setUp()
        patch = mock.patch.dict(os.environ, {"DITA_DESK": BATCH, "DESK_LOG": str(self.root / "log")})
        patch.start()
        self.addCleanup(patch.stop)

    def modes(self) -> list[str]:
        """The words of each call of the desk, without the folder of the pages."""
        lines = (self.root / "log").read_text(encoding="utf-8").splitlines()
        (self.root / "log").unlink()
        return [" ".join(word for word in line.split(" ") if not word.startswith("/")) for line in lines]


class Asked(Desk):
    def test_a_batch_with_as_many_workers_as_are_wanted(self):
        for words, workers in [((), options.processors()), (("--workers", "1"), 1), (("--workers", "16"), 16)]:
            self.publish(FILES, *words)
            self.assertEqual(self.modes(), ["--help", f"batch --out --workers {workers}"])

    def test_as_many_as_there_are_processors(self):
        for processors, workers in [(1, 1), (5, 5), (16, 16), (64, 16)]:
            with mock.patch("os.sched_getaffinity", lambda _: set(range(processors))):
                self.assertEqual(options.processors(), workers)

    def test_an_index_is_made_on_one_thread(self):
        self.publish(FILES, "--index", "--workers", "3")
        self.assertEqual(self.modes(), ["terms --out"])
        self.assertIn("<li>tap <a", self.page("terms.htm"))

    def test_other_numbers_are_refused(self):
        for word in ("0", "17", "-1", "x", "2.5", "\u0663", "", "1e1"):
            result = self.publish(FILES, f"--workers={word}", status=2)
            self.assertIn(f"publish: argument --workers: `{word}` is no number from 1 to 16; `publish --help` says how", result.errors)
        self.assertEqual(self.left(), [])

    def test_a_program_that_is_older_than_batches(self):
        os.environ["DESK_IS_OLD"] = "1"
        result = self.publish(FILES, "--workers", "3")
        self.assertEqual((self.modes(), result.errors, len(self.pages())), (["--help", "clean --out"], "", 3))

    def test_the_modes_of_a_program(self):
        self.assertEqual(program.modes([sys.executable, "-c", f"print({HELP.format(NEW)!r})"]), ["clean", "terms", "gen", "batch", "trial"])
        for words in (["false"], ["true"], ["/no/such/program"], ["echo", "batch"]):
            self.assertEqual(program.modes(words), [], words)
        del os.environ["DITA_DESK"]
        self.assertEqual(program.modes(program.find())[:2], ["clean", "terms"])


class Same(Desk):
    def test_the_pages_and_what_is_told(self):
        for words in ((), ("--no-style",), ("-q",), ("-v",)):
            self.put(FILES)
            ends = []
            for old in ({}, {"DESK_IS_OLD": "1"}):
                with mock.patch.dict(os.environ, old):
                    ends.append((self.call("docs", "m.ditamap", "out", *words), self.pages()))
            self.assertEqual(ends[0], ends[1])
            self.assertEqual((ends[0][0].status, len(ends[0][1])), (0, 3))
            self.assertIn("there is no topic `gone.dita`: it gets no page (TopicMissing)", ends[0][0].output)
        self.assertEqual(len([words for words in self.modes() if words.startswith("batch")]), 4)

    def test_without_a_style_each_page_is_that_of_the_mode_clean(self):
        self.publish(FILES, "--keep", "kept")
        self.assertEqual(self.pages(), self.desk_pages("clean"))
        self.assertIn("|a\n|row 2 page m.ditamap - 0 1\nend 1 0 0", self.page("b/u.html"))

    def test_the_transcript_that_is_kept_has_the_pages_and_the_faults(self):
        self.publish(FILES, "--keep", "kept")
        unpacked = self.step("unpack", "kept/transcript", "again", "4")
        self.assertEqual((unpacked.returncode, self.pages("again")), (0, self.pages()))
        faults = self.step("faults", "docs", "kept/script", "kept/transcript")
        codes = [line.rpartition(" ")[2] for line in faults.stdout.splitlines()]
        self.assertEqual((faults.returncode, codes), (0, ["(TopicMissing)", "(KeyUndefined)"]), faults)

    def step(self, name: str, *words: str) -> subprocess.CompletedProcess:
        return subprocess.run([sys.executable, str(TOOL / name), *words], cwd=self.root, capture_output=True, text=True, timeout=60)

    def test_the_program_that_is_found(self):
        del os.environ["DITA_DESK"]
        if "batch" not in program.modes(program.find()):
            self.skipTest("the program that is found is older than batches")
        for workers in ("1", "2", "7"):
            self.publish(FILES, "--keep", "kept", "--workers", workers)
            self.assertIn("\n|page t.html row ", (self.root / "kept" / "transcript").read_text(encoding="utf-8"))
            self.assertEqual(self.pages(), self.desk_pages("clean"))


class Fails(Desk):
    def stops(self, code: str, said: str) -> None:
        """A desk whose batch does this: nothing is published, and this is told."""
        self.put({"desk": f"#!/bin/sh\n[ \"$1\" = --help ] && echo '{HELP.format(NEW)}' && exit\ncat > /dev/null\n{code}\n"}, self.root)
        os.chmod(self.root / "desk", 0o755)
        os.environ["DITA_DESK"] = str(self.root / "desk")
        result = self.publish(FILES, status=2)
        self.assertEqual(result.errors, f"publish: {said}\npublish: nothing is published\n")
        self.assertEqual(self.left(), ["desk"])

    def test_a_batch_that_does_not_end_as_it_should(self):
        self.stops("echo >&2 dita_desk: NoMemory; exit 5", "memory ran out: dita_desk: NoMemory")
        self.stops("echo >&2 dita_desk: WriteFault; exit 4", "the transcript could not be written by the desk: dita_desk: WriteFault")
        self.stops("kill -9 $$", "the desk was stopped by signal 9")

    def test_a_transcript_that_can_not_be_read(self):
        self.stops("echo dita transcript 1",
                   "the desk's answer can't be read: it is cut off: its last line, which begins with `end`, is missing")
        self.stops("", "the desk's answer can't be read: it is no transcript: its first line is not `dita transcript 1`")
        self.stops("printf 'dita transcript 1\\nend 0 0 0\\n'", "the desk's answer has not as many entries as the script has requests")
        self.stops("printf 'dita transcript 1\\nentry 0 1 4 built 1 0\\n|page t.html row 2\\nend 1 1 0\\n'",
                   "the desk's answer can't be read: request 4: the page `t.html` is in row 2, which is not there")

    def test_a_page_that_can_not_be_written(self):
        self.stops("printf 'dita transcript 1\\nentry 0 1 4 built 2 0\\n|page t.html row 2\\n|page t.html/u.html row 2\\n"
                   "row 2 page m.ditamap - 0 1\\n|x\\nend 1 1 0\\n'", "a page could not be written: b4/t.html/u.html: File exists")
