"""Names and hrefs as XML editors write them."""
import os
import unittest

from cases import Case, map_of, topic
from publishing import names


class Forms(unittest.TestCase):
    def test_what_a_document_name_cannot_hold_is_escaped(self):
        for path, name in [("a/b.dita", "a/b.dita"), ("a b.dita", "a%20b.dita"), ("b\u00e4.dita", "b\u00e4.dita"), ("100%.dita", "100%25.dita"),
                           ("a#b?c:d\\e.dita", "a%23b%3Fc%3Ad%5Ce.dita"), ("\x01\x7f.dita", "%01%7F.dita"), (os.fsdecode(b"\xe9.dita"), "%E9.dita")]:
            self.assertEqual(names.encoded(path), name)
            self.assertEqual(names.decoded(name), path)

    def test_references_have_the_form_of_names(self):
        for value, normalised in [("b%C3%A4.dita", "b\u00e4.dita"), ("b%c3%a4.dita", "b\u00e4.dita"), ("a%20file.dita", "a%20file.dita"),
                                  ("a file.dita#t/%C3%A4", "a%20file.dita#t/\u00e4"), ("./x/../b.dita", "./x/../b.dita"), ("#./e", "#./e"),
                                  ("100%25.dita", "100%25.dita"), ("100%.dita", "100%25.dita"), ("%7E.dita", "~.dita"),
                                  ("a.html?x=1&y=%20#z", "a.html?x=1&y=%20#z")]:
            self.assertEqual(names.normalised(value), normalised)

    def test_joining(self):
        for name, path, joined in [("a/b.dita", "c.dita", "a/c.dita"), ("a/b.dita", "./x/../c.dita", "a/c.dita"), ("a/b.dita", "", "a/b.dita"),
                                   ("a/b.dita", "../c.dita", "c.dita"), ("b.dita", "../c.dita", None), ("b.dita", "/c.dita", None), ("b.dita", "x//y", "x/y")]:
            self.assertEqual(names.joined(name, path), joined)


class Files(Case):
    def test_spaces_and_umlauts(self):
        files = {
            "m.ditamap": map_of("my%20topics/b%C3%A4.dita", "my topics/a file.dita", "./x/../100%25.dita", "no%23.dita"),
            "my topics/b\u00e4.dita": topic("<p><xref href='a%20file.dita#a/p'>A</xref><xref href='../100%25.dita'/></p>"
                                         "<image href='my%20picture.png'/>"),
            "my topics/a file.dita": topic("<p id='p'><xref href='b\u00e4.dita'/><xref href='../no%23.dita'/></p>"
                                           "<image href='my picture.png'/>", "a"),
            "my topics/my picture.png": b"x", "100%.dita": topic("", "h", "Hundred"), "no#.dita": topic("", "n", "Number"),
        }
        result = self.publish(files)
        self.assertEqual(result.told, [])
        self.assertEqual(sorted(str(path.relative_to(self.out)) for path in self.out.rglob("*.*") if path.is_file() and path.name[0] != "."),
                         ["100%.html", "index.html", "my topics/a file.html", "my topics/b\u00e4.html", "my topics/my picture.png", "no#.html"])
        page = self.page("my topics/b\u00e4.html")
        self.assertIn('<a href="../my%20topics/a%20file.html#a__p">A</a>', page)
        self.assertIn('<a href="../100%25.html">Hundred</a>', page)
        self.assertIn('src="../my%20topics/my%20picture.png"', page)
        self.assertIn('<a href="../no%23.html">Number</a>', self.page("my topics/a file.html"))

    def test_messages_show_real_names(self):
        files = {"my map.ditamap": map_of("my%20t.dita", "gone%20%C3%A4.dita"),
                 "my t.dita": topic("<image href='p%20q.png'/><p conref='no%20such.dita#t/x'/>")}
        self.put(files)
        result = self.call("docs", "my map.ditamap", "out")
        self.assertEqual(result.told, [
            "docs/my map.ditamap:1:52: there is no topic `gone \u00e4.dita`: it gets no page (TopicMissing)",
            "docs/my t.dita:1:37: the picture `p q.png` is missing",
            "docs/my t.dita:1:62: there is no file `no such.dita`: the content is not brought in (ConrefMissing)"])

    def test_a_file_name_that_is_no_utf8(self):
        (self.docs / os.fsdecode(b"\xe9.dita")).write_text(topic("", "l", "Latin"))
        result = self.publish({"m.ditamap": map_of("%E9.dita")})
        self.assertEqual(result.told, [])
        self.assertTrue(os.path.isfile(os.fsencode(self.out) + b"/\xe9.html"))

    def test_a_path_that_is_too_long(self):
        name = "x" * 200 + "/" + "y" * 60 + ".dita"
        result = self.publish({"m.ditamap": map_of(name), name: topic("")})
        self.assertEqual(result.told, [
            f"docs/m.ditamap:1:22: `{name}` can't be read (docs/{name}): nothing comes of it (BadReference)",
            f"docs/{name}: the path of the file is longer than 255 bytes: the document is left out"])
        picture = "x" * 260 + ".png"
        result = self.publish({"m.ditamap": map_of("t.dita"), "t.dita": topic(f"<image href='{picture}'/>")})
        self.assertEqual(result.told, [f"docs/t.dita:1:37: the reference `{picture}` can't be read, or leads out of the folder (BadReference)"])

    def test_references_that_lead_away_stay_as_they_are(self):
        away = "https://example.com/a%2Fb?c=%20d"
        result = self.publish({
            "m.ditamap": map_of("t.dita"),
            "t.dita": topic(f"<p><xref href='{away}' scope='external' format='html'>A</xref><xref href='mailto:a@b.c' format='html'/>"
                            "<xref href='/a%2Fb' scope='peer'>P</xref><xref href='../other/u.html#a' scope='peer' format='html'>U</xref>"
                            f"<xref href='later.html' scope='peer' format='html'>L</xref><xref href='{'x' * 300}' scope='peer'>X</xref></p>")})
        self.assertEqual(result.told, [])
        for value in (away, "mailto:a@b.c", "/a%2Fb", "../other/u.html#a", "later.html"):
            self.assertIn(f'href="{value}"', self.page("t.html"))

    def test_nothing_outside_is_copied_for_a_link_with_escapes(self):
        away = ["%2E%2E/%2E%2E/secret", "..%2F..%2Fsecret", "%2Fetc%2Fhostname", "x/%2E%2E/%2E%2E/%2E%2E/secret"]
        links = "".join(f"<xref href='{value}' scope='peer' format='txt'>S</xref>" for value in away)
        self.put({"secret": "mine", "a/b/x/y": "", "a/b/m.ditamap": map_of("t.dita"), "a/b/t.dita": topic(f"<p>{links}</p>")})
        result = self.call("docs/a/b", "m.ditamap", "out", "-v")
        self.assertEqual((result.status, "copied" in result.output, self.left()), (0, False, ["out"]), result)
        self.assertEqual(sorted(path.name for path in self.out.iterdir()), [".publish-made-this", "dita_desk.css", "index.html", "t.html"])

    def test_other_capitals_and_other_accents(self):
        files = {"m.ditamap": map_of("Sub/T.dita", "b\u00e4.dita"), "sub/t.dita": topic(""), "ba\u0308.dita": topic("<image href='A.png'/>"),
                 "n.ditamap": map_of("ba\u0308.dita"), "a.png": b"x"}
        self.assertEqual(self.publish(files).told, [
            "docs/m.ditamap:1:22: there is no topic `Sub/T.dita` (there is `sub/t.dita`): it gets no page (TopicMissing)",
            "docs/m.ditamap:1:51: there is no topic `b\u00e4.dita` (there is `ba\u0308.dita`): it gets no page (TopicMissing)"])
        result = self.call("docs", "n.ditamap", "out")
        self.assertEqual(result.told, ["docs/ba\u0308.dita:1:37: the picture `A.png` is missing (there is `a.png`)"])

    def test_where_you_are(self):
        self.put({"m.ditamap": map_of("t.dita"), "t.dita": topic("<image href='a.png'/>"), "old.dita": "<b>"})
        for words in (["-m", "m.ditamap"], ["-i", ".", "-o", "out"], [".", "m.ditamap", "out"], []):
            result = self.call(*words, cwd=self.docs)
            self.assertEqual((result.status, [line.partition(": ")[0] for line in result.told]), (0, ["old.dita:1:4", "t.dita:1:37"]), words)

    def test_out_of_the_folder(self):
        self.put({"t.dita": topic("", "u", "Above")}, self.root)
        result = self.publish({"m.ditamap": map_of("../t.dita")})
        self.assertEqual(result.told, ["docs/m.ditamap:1:22: the reference `../t.dita` leads out of the folder docs: name one around it by "
                                       "-i (BadReference)"])
