"""From XML to PYX: classes, DTDs, entities, encodings, refusals."""
import pathlib
import unittest

from cases import Case
from publishing import kinds, reader

OUTER = b"<!DOCTYPE topic PUBLIC '-//OASIS//DTD DITA Topic//EN' 'topic.dtd'>\n"


class Read(Case):
    def lines(self, data: bytes, name: str = "t.dita", **more: bytes) -> list[str]:
        """The lines for the desk of a file, without the columns of the marks."""
        self.put({name: data, **more})
        document = reader.read(str(self.docs.resolve()), name, str(self.docs / name))
        return [line.rpartition(":")[0] if line.startswith("?line ") else line for line in document.text().split("\n")]

    def unread(self, data: bytes, **more: bytes) -> str:
        with self.assertRaises(reader.Unread) as raised:
            self.lines(data, **more)
        return str(raised.exception).replace(f"{self.docs}/", "").replace(f"{self.docs.resolve()}/", "")

    def holds(self, lines: list[str], *wanted: str) -> None:
        """These lines stand in `lines` one behind the other."""
        self.assertTrue(any(tuple(lines[at:at + len(wanted)]) == wanted for at in range(len(lines))), (wanted, lines))

    def test_class_from_the_table(self):
        lines = self.lines(b"<task id='t'>\n<title>A</title>\n<shortdesc/></task>")
        self.holds(lines, "?line 1", "(task", "Aclass - topic/topic task/task ", "Aid t")
        self.holds(lines, "?line 3", "(shortdesc", "Aclass - topic/shortdesc ", ")shortdesc")
        self.holds(self.lines(b"<own/>"), "?line 1", "(own", ")own")

    def test_maps_have_their_own_classes(self):
        lines = self.lines(b"<bookmap><bookmeta><shortdesc/></bookmeta><mapref href='n'/><keydef keys='k' processing-role='normal'/></bookmap>")
        self.holds(lines, "(shortdesc", "Aclass - map/shortdesc ")
        self.holds(lines, "(mapref", "Aclass + map/topicref mapgroup-d/mapref ", "Ahref n", "Aformat ditamap")
        self.holds(lines, "(keydef", "Aclass + map/topicref mapgroup-d/keydef ", "Akeys k", "Aprocessing-role normal", ")keydef")

    def test_a_class_that_is_given_wins(self):
        self.holds(self.lines(b"<topic class='- topic/topic own/own ' id='t'/>"), "(topic", "Aclass - topic/topic own/own ", "Aid t")
        inner = b"<!DOCTYPE topic [<!ATTLIST p class CDATA '- topic/p own/p ' audience CDATA 'all'>]><topic><p/></topic>"
        self.holds(self.lines(inner), "(p", "Aclass - topic/p own/p ", "Aaudience all", ")p")
        outer = b"<!DOCTYPE topic SYSTEM 'own.dtd'><topic><p/></topic>"
        parts = {"own.dtd": b"<!ENTITY % more SYSTEM 'dtd/more.mod'> %more;", "dtd/more.mod": b"<!ATTLIST p class CDATA '- topic/p own/p '>"}
        lines = self.lines(outer, **parts)
        self.holds(lines, "(p", "Aclass - topic/p own/p ", ")p")
        self.holds(lines, "(topic", "Aclass - topic/topic ")
        self.holds(self.lines(outer.replace(b"own.dtd", b"../gone.dtd")), "(p", "Aclass - topic/p ", ")p")

    def test_entities(self):
        start = b"<!DOCTYPE topic [<!ENTITY name 'Brook'><!ENTITY part '<b>x</b>'><!ENTITY file SYSTEM 'notes/n.ent'>]>\n"
        lines = self.lines(start + b"<topic>&name; &lt;&#65;\n&part;<p id='&name;&amp;'>&file;</p></topic>", **{"notes/n.ent": b"<i/>\n<i/>"})
        self.holds(lines, "-Brook <A\\n", "?line 3", "(b", "Aclass + topic/ph hi-d/b ", "-x", ")b")
        self.holds(lines, "Aid Brook&", "?line 3", "(i")
        said = self.unread(start + b"<topic>&file;</topic>", **{"notes/n.ent": b"<i/>\n<i></b>"})
        self.assertTrue(said.startswith("notes/n.ent:2:6: not well-formed XML: mismatched tag"), said)
        (self.docs / "notes/n.ent").unlink()
        said = self.unread(start + b"<topic>&file;</topic>")
        self.assertTrue(said.startswith("t.dita:2:8: the file `notes/n.ent` of an entity is not in the folder"), said)

    def test_an_entity_outside_of_the_folder_is_not_read(self):
        self.put({"secret": "x"}, self.root)
        said = self.unread(b"<!DOCTYPE topic [<!ENTITY file SYSTEM '../secret'>]><topic>&file;</topic>")
        self.assertIn("the file `../secret` of an entity is not in the folder", said)

    def test_unknown_entities(self):
        for data, said in [(b"<topic>\n<p>&x;</p></topic>", "t.dita:2:4: not well-formed XML: undefined entity"),
                           (OUTER + b"<topic>\n<p>&x;</p></topic>", "t.dita:3:4: the entity &x; is not declared"),
                           (OUTER + b"<topic>\n<p a='>' b='&amp;&x;'/></topic>", "t.dita:3:1: the entity &x; is not declared")]:
            self.assertTrue(self.unread(data).startswith(said))
        self.assertEqual(self.lines(OUTER + b"<topic a='&lt;&#38;x;'/>")[3], "Aa <&x;")

    def test_text(self):
        lines = self.lines(b"<topic>\r\n<pre>a\\b\tc<![CDATA[<&]]>d<!-- no --><?no no?></pre></topic>")
        self.holds(lines, "-\\n", "?line 2", "(pre", "Aclass - topic/pre ", "-a\\\\b\\tc<&d", ")pre", ")topic")

    def test_line_ends_of_all_systems(self):
        for end in (b"\n", b"\r\n", b"\r"):
            lines = self.lines(end.join([b"<topic>", b"<p>a", b"b</p>", b"<p a='1'/></topic>"]))
            self.holds(lines, "?line 2", "(p", "Aclass - topic/p ", "-a\\nb", ")p", "-\\n", "?line 4", "(p")

    def test_encodings(self):
        text = "<?xml version='1.0' encoding='{}'?>\n<topic t='\u00fc'>\u00e9\u2014</topic>"
        for word, codec in (("UTF-8", "utf-8"), ("UTF-8", "utf-8-sig"), ("UTF-16", "utf-16"), ("windows-1252", "cp1252")):
            lines = self.lines(text.format(word).encode(codec))
            self.holds(lines, "?line 2", "(topic", "Aclass - topic/topic ", "At \u00fc", "-\u00e9\u2014")
        big = "\ufeff<topic>\u20ac</topic>".encode("utf-16-be")
        self.holds(self.lines(big), "(topic", "Aclass - topic/topic ", "-\u20ac")
        self.holds(self.lines(text.format("ISO-8859-1").replace("\u2014", "").encode("latin-1")), "At \u00fc", "-\u00e9")
        self.assertIn("t.dita:2:", self.unread(b"<?xml version='1.0'?>\n<topic>\xe9</topic>"))
        self.assertIn("t.dita:1:", self.unread(b"<?xml version='1.0' encoding='klingon'?><topic/>"))

    def test_refusals(self):
        said = self.unread(b"<topic>\n <b>\n  <i></b></topic>")
        self.assertEqual(said, "t.dita:3:8: not well-formed XML: mismatched tag; the innermost open element is <i> of line 3")
        self.assertEqual(self.unread(b""), "t.dita:1:1: the file is empty")
        self.assertEqual(self.unread(b"\n \n"), "t.dita:3:1: not well-formed XML: no element found")
        self.assertIn("t.dita:1:10: not well-formed XML: duplicate attribute", self.unread(b"<a b='1' b='2'/>"))

    def test_places(self):
        self.put({"t.dita": b"<topic>\n  <p/><p id='a'>x\n</p></topic>"})
        document = reader.read(str(self.docs), "t.dita", str(self.docs / "t.dita"))
        lines = document.text().split("\n")
        places = [document.place(at) for at, line in enumerate(lines, 1) if line[0] == "("]
        self.assertEqual(places, [(1, 1), (2, 3), (2, 7)])

    def test_line_ends_between_elements(self):
        lines = self.lines(b"<topic><title>T</title><body><p>a</p><p>b</p> <p/><!-- c --><p/></body></topic>")
        self.assertEqual([line for line in lines if line[0] in "-()"],
                         ["(topic", "(title", "-T", ")title", "-\\n", "(body", "(p", "-a", ")p", "-\\n", "(p", "-b", ")p", "- ", "(p", ")p",
                          "-\\n", "(p", ")p", ")body", ")topic"])

    def test_a_large_document(self):
        lines = self.lines(b"<topic>" + b"\n<p id='a'>Some words &amp; more of them</p>" * 20000 + b"</topic>")
        self.assertEqual((lines.count("(p"), lines.count("-Some words & more of them")), (20000, 20000))


class Tables(unittest.TestCase):
    def test_the_table_of_classes(self):
        text = (pathlib.Path(kinds.__file__).parent / "classes").read_text(encoding="utf-8")
        rows = [line for line in text.split("\n") if line and not line.startswith("#")]
        found = [row.split(" ")[0] for row in rows]
        self.assertEqual(len(set(found)), len(found))
        for row in rows:
            name, sign, *tokens = row.split(" ; ")[0].split()
            self.assertTrue(sign in "+-" and all(token.count("/") == 1 for token in tokens), row)
            self.assertEqual(tokens[-1].split("/")[1], name.replace("map:", ""), row)
