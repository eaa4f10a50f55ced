"""The command `unpack`: the pages of a batch's transcript, and what is told of bytes that are none."""
import os
import resource
import subprocess
import sys
import unittest

from cases import TOOL, Case
from publishing import rows
from publishing.output import MARKER

FIRST, SECOND, CONTENTS = b"<!DOCTYPE html>\n|a\n||b\n\nrow 7 page m - 0 1\n", b"end 1 0 0\n", b"x\n"
HEADS = ["dita transcript 1", "entry 0 2 4 stored 1", "entry 1 1 1 text 2", "|row 3 page m.ditamap - 0 1", "|end 0 0 0", "entry 2 3 2 nomap",
         "entry 3 3 5 built 3 1", "|page t.html row 2", "|page b/\u00e4.html row 3", "|page index.html row 5",
         "|m.ditamap:4 TopicMissing gone.dita", "entry 4 1 3 names 1", "|t.dita 1",
         "entry 5 3 6 built 2 0", "|page b/\u00e4.html row 3", "|page index.html row 9"]
ROWS = ["row 2 page m.ditamap - 0 5", "|<!DOCTYPE html>", "||a", "|||b", "|", "|row 7 page m - 0 1",
        "row 3 page m.ditamap v.ditaval 1 1", "|end 1 0 0",
        "row 5 contents m.ditamap - 0 1", "|x", "row 9 contents m.ditamap - 0 0"]
TEXT = "\n".join([*HEADS, *ROWS, "end 6 7 0", ""])
PAGES = {"b5/t.html": FIRST, "b5/b/\u00e4.html": SECOND, "b5/index.html": CONTENTS, "b6/b/\u00e4.html": SECOND, "b6/index.html": b""}


class Unpack(Case):
    def unpack(self, *words: str, text: str | bytes = TEXT, **how: object) -> subprocess.CompletedProcess:
        self.put({"t": text}, self.root)
        given = {"cwd": self.root, "capture_output": True, "text": True, "timeout": 60, **how}
        return subprocess.run([sys.executable, str(TOOL / "unpack"), "t", *words], **given)

    def refused(self, said: str, *words: str, text: str | bytes = TEXT, status: int = 2) -> None:
        """Nothing is written, and this is told."""
        ended = self.unpack(*(words or ("out",)), text=text)
        self.assertEqual((ended.returncode, ended.stdout), (status, ""), ended)
        self.assertEqual(ended.stderr, f"unpack: {said}\nunpack: nothing is written\n")

    def changed(self, old: str, new: str, said: str) -> None:
        self.assertEqual(TEXT.count(old), 1, old)
        self.refused(said, text=TEXT.replace(old, new))

    def test_the_pages_of_all_builds(self):
        ended = self.unpack("out")
        self.assertEqual((ended.returncode, ended.stdout, ended.stderr), (0, f"5 pages of 2 builds in {self.out}\n", ""))
        self.assertEqual((self.pages(), self.left()), (PAGES, ["out", "t"]))

    def test_the_pages_of_one_build(self):
        ended = self.unpack("new/out", "6")
        self.assertEqual((ended.returncode, ended.stdout), (0, f"2 pages of 1 build in {self.root}/new/out\n"), ended)
        self.assertEqual(self.pages("new/out"), {name[3:]: data for name, data in PAGES.items() if name[:3] == "b6/"})

    def test_a_number_that_is_no_finished_build(self):
        for number in ("2", "1", "99"):
            self.refused(f"t: request {number} is no finished build; the requests that are: 5, 6", "out", number)
        self.refused("t: request 1 is no finished build; the requests that are: none", "out", "1", text="dita transcript 1\nend 0 0 0\n")
        self.refused("t: no build of it is finished, so it has no pages", text="dita transcript 1\nentry 0 1 1 nomap\nend 1 1 0\n")
        self.assertEqual(self.left(), ["t"])

    def test_out_is_replaced_by_the_rule_of_publish(self):
        self.put({"notes.txt": "mine"}, self.out)
        self.refused("out: is not empty, and was not made by this tool: name a new folder, or empty this one first")
        self.assertEqual([path.name for path in self.out.iterdir()], ["notes.txt"])
        (self.out / "notes.txt").unlink()
        self.assertEqual(self.unpack("out").returncode, 0)
        self.put({"notes.txt": "mine"}, self.out)
        self.assertEqual(self.unpack("out", "5").returncode, 0)
        self.assertEqual(sorted(os.listdir(self.out)), [MARKER, "b", "index.html", "notes.txt", "t.html"])
        self.refused("t: request 2 is no finished build; the requests that are: 5, 6", "out", "2")
        self.refused("t: it is no transcript: its first line is not `dita transcript 1`", text="")
        self.assertEqual((sorted(os.listdir(self.out)), self.left()), ([MARKER, "b", "index.html", "notes.txt", "t.html"], ["out", "t"]))

    def test_out_that_is_a_file_or_in_no_folder_that_can_be_made(self):
        self.refused("t: is a file: name a folder for the pages", "t")
        self.refused("t/out: no folder can be made beside it: Not a directory", "t/out")
        self.assertEqual((self.root / "t").read_text(encoding="utf-8"), TEXT)

    def test_a_page_that_can_not_be_written(self):
        text = "\n".join(["dita transcript 1", "entry 0 1 1 built 2 0", "|page a.html row 2", "|page a.html/b.html row 2",
                          "row 2 page m - 0 1", "|x", "end 1 2 0", ""])
        self.refused("a page could not be written: b1/a.html/b.html: File exists", text=text)
        self.refused("a page could not be written: b1/a.html: File exists", text=text.replace("/b.html", ""))
        self.put({"t": TEXT.replace("|x\n", f"|{'x' * 9999}\n")}, self.root)
        ended = subprocess.run([sys.executable, str(TOOL / "unpack"), "t", "out"], cwd=self.root, capture_output=True, text=True,
                               preexec_fn=lambda: resource.setrlimit(resource.RLIMIT_FSIZE, (9000, 9000)))
        self.assertEqual((ended.returncode, self.left()), (2, ["t"]))
        self.assertIn("unpack: a page could not be written: b5/index.html: File too large\n", ended.stderr)

    def test_words(self):
        for words in ((), ("out", "b5"), ("out", "5", "6"), ("out", "0")):
            ended = self.unpack(*words)
            self.assertEqual((ended.returncode, ended.stdout, self.left()), (2, "", ["t"]), words)
            self.assertIn("unpack TRANSCRIPT OUT BUILD", ended.stderr)
        ended = subprocess.run([sys.executable, str(TOOL / "unpack"), "gone", "out"], cwd=self.root, capture_output=True, text=True)
        self.assertEqual((ended.returncode, ended.stderr), (2, "unpack: gone: No such file or directory\nunpack: nothing is written\n"))

    def test_bytes_that_are_no_transcript(self):
        self.refused("t: it is no transcript: its first line is not `dita transcript 1`", text="1 put t.dita\n")
        self.refused("t: it is no transcript: its first line is not `dita transcript 1`", text=b"\xff\xfe")
        self.refused("t: the desk read no script: script NoEnd 3", text="script NoEnd 3\n")
        self.refused("t: it has no pages: the modes `clean` and `terms` put them into the folder that `--out` named",
                     text="dita transcript 1\nentry 0 1 1 built 1 0\n|page index.html bytes 9\nend 1 0 0\n")
        self.refused("t: line 3: this is not UTF-8", text=TEXT.encode().replace(b"entry 1", b"\xff"))

    def test_a_transcript_that_does_not_fit_itself(self):
        row = "is in row 5, which is not there"
        self.changed("row 5 contents", "row 6 contents", f"t: request 5: the page `index.html` {row}")
        self.changed("end 6 7 0\n", "end 5 7 0\n", "t: its line `end` counts 5 entries, and 6 stand there")
        self.changed("end 6 7 0\n", "end 6 7 0\nx\n", "t: line 29: this stands behind the line `end`")
        self.changed("row 3 page m.ditamap v", "row 2 page m.ditamap v", "t: line 23: row 2 stands there twice")
        self.changed("||a\n", "", "t: line 17: row 2 tells 5 lines, and 4 stand there")
        self.changed("text 2", "text 3", "t: line 3: the reply `text 3` does not tell the 2 lines below")
        self.changed("built 3 1", "built 4", "t: line 7: the reply `built 4` does not tell the 4 lines below")
        self.changed("nomap", "built", "t: line 6: the reply `built` does not tell the 0 lines below")
        self.changed("entry 4", "entri 4", "t: line 12: `entri 4 1 3 names 1` is no line of a transcript here")
        self.changed("row 9 contents", "row 09 contents", "t: line 27: `row 09 contents m.ditamap - 0 0` is no line of a transcript here")
        self.changed("entry 4 1 3", f"entry {'4' * 5000} 1 3", f"t: line 12: `entry {'4' * 54}` is no line of a transcript here")
        self.changed("|page t.html row 2", "|page t.html row", "t: request 5: `page t.html row` is no line of a page")

    def test_names_that_lead_out_of_the_folder(self):
        for name in ("../t.html", "/t.html", "a/../../t.html", "a//t.html", "./t.html", "..", "-", "t\x7f.html", "a" * 256):
            self.changed("page t.html", f"page {name}", f"t: request 5: `{name}` is no name of a page: it could lead out of the folder")
        self.assertEqual(self.left(), ["t"])


class Cut(unittest.TestCase):
    def test_no_beginning_is_taken_for_a_whole(self):
        data = TEXT.encode("utf-8")
        self.assertEqual(len(rows.read(data).entries), 6)
        for length in range(len(data)):
            with self.assertRaises(rows.Unread, msg=str(length)) as refused:
                rows.read(data[:length])
            told = str(refused.exception)
            self.assertTrue(told == rows.CUT_OFF or length < len(rows.HEAD) and told.startswith("it is no transcript"), (length, told))
