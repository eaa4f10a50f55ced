"""The steps one by one, and a project from the generator."""
import subprocess
import sys

import project
from cases import TOOL, TOP, Case, map_of
from publishing import sentences, steps


class Steps(Case):
    def step(self, name: str, *words: str) -> subprocess.CompletedProcess:
        return subprocess.run([sys.executable, str(TOOL / name), *words], cwd=self.root, capture_output=True, timeout=60)

    def test_to_script(self):
        self.put({"m.ditamap": map_of("b/t.dita"), "b/t.dita": "<topic/>", "v.ditaval": "<val/>", "other.dita": "<topic/>"})
        ended = self.step("xml-to-script", "docs", "m.ditamap", "v.ditaval")
        requests = [line for line in ended.stdout.decode().split("\n") if line[:2] == "1 "]
        self.assertEqual((ended.returncode, requests), (0, ["1 put b/t.dita", "1 put m.ditamap", "1 put v.ditaval", "1 build m.ditamap v.ditaval"]))
        self.assertTrue(ended.stdout.endswith(b"(val\n)val\n.\n1 build m.ditamap v.ditaval\n"))
        self.put({"b/t.dita": "<topic>"})
        ended = self.step("xml-to-script", "docs", "m.ditamap")
        self.assertEqual(ended.returncode, 1)
        self.assertTrue(ended.stderr.startswith(b"docs/b/t.dita:1:8: not well-formed XML: no element found"), ended.stderr)
        ended = self.step("xml-to-script", "docs", "gone.ditamap")
        self.assertEqual((ended.returncode, ended.stdout, ended.stderr), (2, b"", b"docs/gone.ditamap: there is no such document\n"))

    def test_faults_of_a_script_with_groups(self):
        """A group that is done, a group that is stopped, and the marks of the lines of XML with columns and without."""
        script = ("# a comment\n1 group\nput m.ditamap\n?line 7:3\n(map\n?line 8\n(topicref\nAhref t.dita\n)topicref\n)map\n.\nend\n"
                  "1 group\nput a.dita\n?line 5:1\n(a\n.\nremove m.ditamap\nend\n1 build m.ditamap\n1 build gone.ditamap\n")
        transcript = ("dita transcript 1\nentry 0 1 1 grouped 1\nentry 1 1 2 stopped 1 refused Unclosed 2\nentry 2 1 3 built 1 3\n"
                      "|page index.html bytes 9\n|m.ditamap:2 NoClass map\n|m.ditamap:4 NoClass topicref\n|m.ditamap:4 TopicMissing a%20b.dita\n"
                      "entry 3 1 4 nomap\nend 4 0 0\n")
        told = [str(message) for message in steps.Told("docs").all(script, transcript)]
        self.assertEqual(told, [
            "docs/a.dita:5:1: the document is left out (Unclosed)",
            "docs/a.dita: edit 1 of its group is refused, so none of its 2 edits is done (refused Unclosed 2)",
            "docs/m.ditamap:7:3: the element <map> has no class: only what it holds is published (NoClass)",
            "docs/m.ditamap:8: the element <topicref> has no class: only what it holds is published (NoClass)",
            "docs/m.ditamap:8: there is no topic `a b.dita`: it gets no page (TopicMissing)",
            "docs: `gone.ditamap`: there is no such map, so nothing was built (nomap)"])

    def test_a_transcript_that_says_there_is_no_script(self):
        self.put({"s": "x", "t": "script BadCommand 1\n"})
        ended = self.step("faults", "docs", "docs/s", "docs/t")
        self.assertEqual((ended.returncode, ended.stderr), (2, b"docs/s: the desk reads no script there: script BadCommand 1\n"))

    def test_each_fault_of_the_desk_has_a_sentence(self):
        source = (TOP / "crates" / "dita_doc" / "src" / "fault.rt").read_text(encoding="utf-8")
        names = [line.split("=")[0].strip() for line in source.split("pub enum FaultCode {", 1)[1].split("}", 1)[0].splitlines() if " = " in line]
        self.assertEqual(sorted(names), sorted(sentences.SENTENCES))


class Project(Case):
    def test_a_project_of_forty_topics_has_no_fault(self):
        project.make(self.docs, 40)
        result = self.call("docs", "project.ditamap", "out")
        self.assertEqual((result.status, result.output), (0, f"41 pages in {self.out}, 0 faults\n"), result)
        page = self.page("topics/t7.html")
        for piece in ("<title>Task 7</title>", 'href="../topics/t6.html#t6__p"', "The plate is <b>hot</b>", "What task 7 of <span>Heron</span> is for."):
            self.assertIn(piece, page)
        self.assertEqual(len(list((self.out / "pictures").iterdir())), 10)
