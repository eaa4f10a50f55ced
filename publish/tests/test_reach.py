"""What the map reaches decides."""
import os
import re
import subprocess

from cases import PUBLISH, Case, map_of, topic

BROKEN = "<topic id='b'>\n <title>B</title>\n <body><p>x</body></topic>"
WHY = "not well-formed XML: mismatched tag; the innermost open element is <p> of line 3"


class Reach(Case):
    def scripted(self) -> list[str]:
        """The documents of the script that was kept."""
        return re.findall(r"^1 put (.*)$", (self.root / "kept" / "script").read_text(encoding="utf-8"), re.MULTILINE)

    def test_a_broken_file_that_is_not_reached_is_a_warning(self):
        result = self.publish({"m.ditamap": map_of("t.dita"), "t.dita": topic(""), "old/b.dita": BROKEN}, "--strict")
        self.assertEqual(result.told, [f"docs/old/b.dita:3:14: warning: {WHY}: nothing that is published leads to this file"])
        self.assertIn("2 pages in ", result.output)
        self.assertIn(", 0 faults, 1 warning\n", result.output)

    def test_a_broken_file_that_is_reached_is_told_and_the_rest_is_published(self):
        files = {"m.ditamap": map_of("b.dita", "t.dita"), "b.dita": BROKEN, "t.dita": topic("<p><xref href='b.dita'>B</xref></p>")}
        result = self.publish(files)
        self.assertEqual(result.told, [
            f"docs/b.dita:3:14: {WHY}: the document is left out",
            "docs/m.ditamap:1:22: `b.dita` can't be read (docs/b.dita:3:14): it gets no page (TopicMissing)",
            "docs/t.dita:1:40: `b.dita` can't be read (docs/b.dita:3:14): no link leads there (LinkNoPage)"])
        self.assertTrue((self.out / "t.html").is_file())
        self.assertFalse((self.out / "b.html").exists())

    def test_strict_gives_status_1_and_publishes(self):
        self.publish({"m.ditamap": map_of("gone.dita", "t.dita"), "t.dita": topic("")}, "--strict", status=1)
        self.assertTrue((self.out / "t.html").is_file())

    def test_all_broken_files_are_told_at_once(self):
        result = self.publish({"m.ditamap": map_of("b.dita", "c.dita"), "b.dita": BROKEN, "c.dita": BROKEN})
        self.assertEqual([line.split(": ")[0] for line in result.told],
                         ["docs/b.dita:3:14", "docs/c.dita:3:14", "docs/m.ditamap:1:22", "docs/m.ditamap:1:47"])

    def test_only_what_is_reached_is_read(self):
        files = {
            "m.ditamap": "<map><mapref href='sub/n.ditamap'/><keydef keys='k' href='key.dita'/><ditavalref href='v.ditaval'/></map>",
            "sub/n.ditamap": map_of("t.dita"),
            "sub/t.dita": topic("<note conref='../shared.dita#s/n'/><p><xref href='../linked.dita'/></p>"),
            "shared.dita": topic("<note id='n'>N<xref href='deep.dita'/></note>", "s"), "deep.dita": topic("", "d", "Deep"),
            "linked.dita": topic("<note conref='further.dita#f/n'/>", "l", "Linked"), "further.dita": topic("<note id='n'/>", "f"),
            "key.dita": topic(""), "v.ditaval": "<val/>", "other.dita": topic(""), "other.ditamap": map_of("other.dita"),
        }
        self.publish(files, "--keep", "kept")
        self.assertEqual(self.scripted(), ["deep.dita", "key.dita", "linked.dita", "m.ditamap", "shared.dita", "sub/n.ditamap",
                                           "sub/t.dita", "v.ditaval"])
        self.assertIn("Linked", self.page("sub/t.html"))

    def test_a_ditaval_may_lie_anywhere(self):
        files = {"m.ditamap": map_of("t.dita"), "t.dita": topic("<p audience='new'>New</p><p>Old</p>")}
        rule = "<val><prop att='audience' val='new' action='exclude'/></val>"
        self.put({"my rules.ditaval": rule}, self.root)
        self.publish(files, "--filter", "my rules.ditaval")
        self.assertNotIn("New", self.page("t.html"))
        self.assertIn("Old", self.page("t.html"))
        self.publish({"in.ditaval": rule}, "--filter", "in.ditaval")
        self.assertNotIn("New", self.page("t.html"))
        self.put({"my rules.ditaval": rule.replace("'exclude'", "'hide'")}, self.root)
        result = self.publish(files, "--filter", "my rules.ditaval")
        self.assertEqual(result.told, ["my rules.ditaval:1:6: the action `hide` is none of include, exclude, passthrough and flag: "
                                       "the rule is dropped (BadAction)"])

    def test_files_are_copied_only_where_a_page_refers_to_them(self):
        files = {
            "m.ditamap": "<map><topicref href='t.dita'/><topicref href='files/guide.pdf' format='pdf'><topicmeta><navtitle>G</navtitle>"
                         "</topicmeta></topicref><keydef keys='k' href='p/key.png' format='png'/></map>",
            "t.dita": topic("<image href='p/a.png'/><image keyref='k'/><p audience='x'><image href='p/filtered.png'/></p>"
                            "<p><xref href='files/data.csv' format='csv'>D</xref></p>"),
            "v.ditaval": "<val><prop att='audience' val='x' action='exclude'/></val>",
        }
        beside = ["p/a.png", "p/key.png", "p/filtered.png", "p/unused.png", "files/guide.pdf", "files/data.csv", "notes.txt"]
        result = self.publish(files | {name: b"\x00" + name.encode() for name in beside}, "--filter", "v.ditaval")
        self.assertEqual(result.told, [])
        copied = [name for name in beside if (self.out / name).exists()]
        self.assertEqual(copied, ["p/a.png", "p/key.png", "files/guide.pdf", "files/data.csv"])
        self.assertEqual((self.out / "p/a.png").read_bytes(), b"\x00p/a.png")

    def test_a_folder_that_is_a_link_is_followed(self):
        self.put({"t.dita": topic("<image href='a.png'/>"), "a.png": b"x"}, self.root / "elsewhere")
        os.symlink(self.root / "elsewhere", self.docs / "linked")
        os.symlink(self.docs, self.root / "elsewhere" / "around")
        result = self.publish({"m.ditamap": map_of("linked/t.dita")})
        self.assertEqual(result.told, [])
        self.assertTrue((self.out / "linked/t.html").is_file())
        self.assertEqual((self.out / "linked/a.png").read_bytes(), b"x")

    def test_maps_that_include_each_other(self):
        result = self.publish({"m.ditamap": "<map><mapref href='n.ditamap'/></map>", "n.ditamap": "<map><mapref href='m.ditamap'/></map>"})
        self.assertEqual(result.told, ["docs/n.ditamap:1:6: the map `m.ditamap` stands around this reference already: it is not included "
                                       "again (MapCycle)"])

    def test_no_map_and_no_ditaval(self):
        (self.docs / "sub").mkdir()
        self.put({"n.ditamap": "<map/>", "v.ditaval": "<val/>", "b.ditamap": "<map><b></map>", "t.dita": topic("")})
        for words, said in [
            (("docs", "gone.ditamap", "out"), "gone.ditamap: there is no such file; the files of docs that end in .ditamap: b.ditamap, n.ditamap"),
            (("docs", "n.ditamap", "out", "gone.ditaval"), "gone.ditaval: there is no such file; the files of docs that end in .ditaval: v.ditaval"),
            (("docs", "b.ditamap", "out"), "docs/b.ditamap: can't be read"),
            (("docs", "t.dita", "out"), "docs/t.dita: `t.dita` is no map, so nothing was built"),
            (("docs", "n.ditamap", "out", "t.dita"), "docs/n.ditamap: `n.ditamap t.dita`: the DITAVAL is not there or is none, so nothing was built"),
            (("gone", "m.ditamap", "out"), "gone: there is no such folder"),
            (("-i", "docs/sub", "-m", "docs/n.ditamap", "-o", "out"), "docs/n.ditamap: the map does not lie in docs/sub: name a folder around it by -i"),
            (("-m", "docs", "-o", "out"), "docs: is a folder and no file"),
        ]:
            result = self.call(*words)
            self.assertEqual((result.status, self.left()), (2, []), words)
            self.assertIn(said, result.errors)

    def test_words(self):
        self.put({"m.ditamap": map_of("t.dita"), "t.dita": topic("")})
        for words in [("docs", "m.ditamap", "out"), ("-m", "docs/m.ditamap", "-o", "out"), ("-i", "docs", "-o", "out"),
                      ("-i", "docs", "-m", "m.ditamap"), ("-i", "docs", "-m", "docs/m.ditamap", "-o", "out/deep/er")]:
            result = self.call(*words)
            self.assertEqual((result.status, result.told, result.errors), (0, [], ""), words)
        self.assertTrue((self.out / "deep/er/t.html").is_file())
        for words in [("docs", "m.ditamap", "out", "v", "more"), ("docs", "-i", "docs", "-m", "m.ditamap"), ("--fly",),
                      ("docs", "m.ditamap", "out", "--style", "x", "--no-style"), ("docs", "m.ditamap", "o", "-q", "-v")]:
            result = self.call(*words)
            self.assertEqual((result.status, result.output), (2, ""), words)
            self.assertTrue(result.errors.startswith("publish: ") and "publish --help" in result.errors, result.errors)

    def test_help_and_version(self):
        for word in ("--help", "-h"):
            result = self.call(word)
            self.assertEqual((result.status, result.errors), (0, ""))
            for option in ("-i", "-m", "-o", "--filter", "--index", "--strict", "--clean", "--style", "--no-style", "--keep", "-q", "-v",
                           "--version"):
                self.assertRegex(result.output, rf"(?m)^  {option}[ ,\n]")
        self.assertEqual(self.call("--version").status, 0)

    def test_through_a_link_and_from_any_folder(self):
        self.put({"m.ditamap": map_of("t.dita"), "t.dita": topic("")})
        (self.root / "bin").mkdir()
        os.symlink(PUBLISH, self.root / "bin" / "publish")
        ended = subprocess.run([self.root / "bin" / "publish", self.docs, "m.ditamap", self.out], cwd="/", capture_output=True, timeout=60)
        self.assertEqual((ended.returncode, ended.stderr), (0, b""))
        self.assertTrue((self.out / "t.html").is_file())
