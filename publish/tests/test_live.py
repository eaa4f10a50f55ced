"""A live site: what it leaves in OUT is what a fresh call of `publish` leaves there, whatever was saved."""
from __future__ import annotations

import os
import re
import shutil
import signal
import time

from cases import map_of, topic
from live_cases import FILES, Live
from publishing.output import MARKER


class Saved(Live):
    def test_an_edit_writes_its_page_alone(self):
        site = self.live(FILES)
        site.begun()
        self.assert_fresh()
        self.assertEqual(self.asked(), ["group b/u.dita m.ditamap t.dita", "build m.ditamap"])
        before = {path: (self.out / path).stat() for path in self.tree()}
        self.put({"b/u.dita": topic("<p>Two</p>", "u", "U")})
        [line] = site.until("changed")
        self.assertRegex(line, r"^[0-9:]{8} b/u\.dita changed: 1 page made, 2 found again, 0 faults$")
        self.assertIn("<p>Two</p>", self.page("b/u.html"))
        self.assertEqual([path for path, it in before.items() if (self.out / path).stat() != it and it.st_size and not (self.out / path).is_dir()],
                         ["b/u.html"])
        self.assertEqual(self.asked(), ["putif 1 b/u.dita", "build m.ditamap"])
        self.assert_fresh()
        self.assert_ended(site)

    def test_several_files_are_one_group(self):
        site = self.live(FILES)
        site.begun()
        self.asked()
        os.rename(self.docs / "t.dita", self.docs / "v.dita")
        self.put({"m.ditamap": map_of("v.dita", "b/u.dita", "w.dita"), "w.dita": topic("", "w")})
        lines = site.until("changed")
        self.assertRegex(lines[-1], r"m\.ditamap changed; t\.dita removed: ")
        self.assertEqual(self.asked(), ["group t.dita m.ditamap v.dita w.dita", "build m.ditamap"])
        self.assert_fresh()
        self.assert_ended(site, signal.SIGTERM)

    def test_a_file_that_is_not_well_formed_leaves_the_last_good_page(self):
        site = self.live(FILES)
        site.begun()
        before = self.tree()
        self.put({"b/u.dita": "<topic id='u'>\n<title>"})
        self.assertEqual([re.sub("^[0-9:]{8} ", "", line) for line in site.until("not well-formed")], [
            "b/u.dita changed: 0 pages made, 3 found again, 1 fault (1 new)",
            "docs/b/u.dita:2:8: not well-formed XML: no element found; the innermost open element is <title> of line 2: its last good version "
            "stays"])
        self.assertEqual(self.tree(), before)
        self.put({"t.dita": topic("", "t", "New")})
        self.assertRegex(site.until("t.dita")[-1], "t.dita changed: 2 pages made, 1 found again, 1 fault$")
        self.assertIn("<p>One</p>", self.page("b/u.html"))
        self.put({"b/u.dita": topic("<p>Three</p>", "u", "U")})
        self.assertRegex(site.until("u.dita")[-1], "1 page made, 2 found again, 0 faults$")
        self.assert_fresh()
        self.assert_ended(site)

    def test_a_file_that_was_never_good_is_missing(self):
        site = self.live(FILES | {"b/u.dita": "<topic"})
        lines = site.until("Ctrl-C ends")
        self.assertIn("docs/b/u.dita:1:1: not well-formed XML: unclosed token: the document is left out", lines)
        self.assert_fresh()
        self.put({"b/u.dita": topic("", "u")})
        self.assertRegex(site.until("u.dita changed")[-1], "0 faults$")
        self.assert_fresh()
        self.assert_ended(site)

    def test_maps_and_ditavals_that_are_not_there_for_a_while(self):
        rules = "<val><prop att='audience' val='{}' action='exclude'/></val>"
        site = self.live(FILES | {"v.ditaval": rules.format("x"), "t.dita": topic("<p audience='x'>X</p><p audience='y'>Y</p>")}, "v.ditaval")
        site.begun()
        before = self.tree()
        for name in ("m.ditamap", "v.ditaval"):
            text = (self.docs / name).read_bytes()
            (self.docs / name).unlink()
            self.assertEqual(site.until("not there")[-2:], [site.lines[site.read - 2], f"docs/{name}: is not there any more"])
            self.assertRegex(site.lines[site.read - 2], f" {name} removed: the pages stay as they were$")
            self.assertEqual(self.tree(), before)
            self.put({name: text})
            site.until(f"{name} new: 0 pages made, 3 found again, 0 faults$")
            self.assert_fresh("v.ditaval")
        self.put({"m.ditamap": topic("")})
        site.until("docs/m.ditamap: `m.ditamap v.ditaval` is no map, so nothing was built")
        self.assertEqual(self.tree(), before)
        self.put({"m.ditamap": FILES["m.ditamap"], "v.ditaval": rules.format("y")})
        site.until("v.ditaval changed: ")
        self.assertIn("X", self.page("t.html"))
        self.assert_fresh("v.ditaval")
        self.assert_ended(site)

    def test_pictures_and_the_style_sheet(self):
        site = self.live(FILES | {"own.css": "p {}"}, "--style", "docs/own.css")
        site.begun()
        self.asked()
        self.put({"p/a.png": b"other"})
        site.until("p/a.png changed: 0 pages made, 3 found again, 0 faults$")
        self.assertEqual((self.out / "p/a.png").read_bytes(), b"other")
        (self.docs / "p/a.png").unlink()
        self.assertEqual(site.until("is missing")[-1], "docs/t.dita:1:37: the picture `p/a.png` is missing")
        self.assertFalse((self.out / "p").exists())
        self.put({"own.css": "p { color: red }", "p/a.png": b"again"})
        site.until("0 pages made, 3 found again, 0 faults")
        if b"red" not in (self.out / "dita_desk.css").read_bytes() or not (self.out / "p/a.png").exists():
            site.until("0 pages made, 3 found again, 0 faults")
        self.assert_fresh("--style", "docs/own.css")
        self.assertEqual(self.asked(), [])
        self.assert_ended(site)

    def test_the_title_of_the_map_dresses_all_pages_anew(self):
        site = self.live(FILES)
        site.begun()
        self.put({"m.ditamap": map_of("t.dita", "b/u.dita").replace("<title>M<", "<title>Other<")})
        site.until("m.ditamap changed: ")
        self.assertIn('<a href="../index.html">Other</a>', self.page("b/u.html"))
        self.assert_fresh()
        self.assert_ended(site)

    def test_entities_of_other_files(self):
        dtd = '<!DOCTYPE topic [<!ENTITY it SYSTEM "{}">]>'
        site = self.live(FILES | {"t.dita": dtd.format("it.xml") + topic("<p>&it;</p>"), "it.xml": "First"})
        site.begun()
        self.put({"it.xml": "Second"})
        site.until("it.xml changed: 1 page made")
        self.assertIn("Second", self.page("t.html"))
        (self.docs / "it.xml").unlink()
        site.until("the file `it.xml` of an entity is not in the folder: its last good version stays")
        self.put({"it.xml": "Third"})
        site.until("it.xml new: 1 page made")
        self.assert_fresh()
        self.assert_ended(site)

    def test_a_document_that_the_desk_refuses(self):
        deep = "<ul><li>" * 130 + "</li></ul>" * 130
        site = self.live(FILES)
        site.begun()
        self.put({"t.dita": topic(deep), "b/u.dita": topic("<p>Two</p>", "u", "U")})
        site.until(r"docs/t.dita:1:[0-9]+: more than 256 elements stand within one another: the document is left out \(TooDeep\)")
        self.assertIn("<p>Two</p>", self.page("b/u.html"))
        self.assert_fresh()
        self.put({"t.dita": topic("")})
        site.until("t.dita changed: .* 0 faults$")
        self.assert_fresh()
        self.assert_ended(site)

    def test_files_as_editors_save_them(self):
        site = self.live(FILES)
        site.begun()
        for text in ("One", "Two"):
            self.put({"t.dita.new": topic(f"<p>{text}</p>")})
            os.rename(self.docs / "t.dita", self.docs / "t.dita~")
            os.rename(self.docs / "t.dita.new", self.docs / "t.dita")
            site.until("t.dita changed: 1 page made")
            self.assertIn(text, self.page("t.html"))
        with open(self.docs / "t.dita", "w", encoding="utf-8") as file:
            for part in (topic("<p>Long</p>")[:20], topic("<p>Long</p>")[20:]):
                file.write(part)
                file.flush()
                time.sleep(0.02)
        self.assertRegex(site.until("t.dita")[-1], "1 page made, 2 found again, 0 faults$")
        self.assert_fresh()
        self.assert_ended(site)

    def test_what_others_put_into_out_stays_and_out_that_is_gone_is_made_again(self):
        site = self.live(FILES)
        site.begun()
        self.put({"CNAME": "example.org", "b/notes.txt": "mine"}, self.out)
        self.put({"m.ditamap": map_of("t.dita")})
        site.until("m.ditamap changed")
        self.assertEqual(sorted(self.tree()), sorted([MARKER, "CNAME", "b", "b/notes.txt", "dita_desk.css", "index.html", "p", "p/a.png", "t.html"]))
        shutil.rmtree(self.out)
        self.put({"t.dita": FILES["t.dita"].replace("<title>T", "<title>Again")})
        site.until("t.dita changed")
        self.assert_fresh()
        (self.out / "b").mkdir()
        (self.out / "b/u.html").write_text("mine")
        self.put({"m.ditamap": FILES["m.ditamap"]})
        site.until("out/b/u.html: was not made by this tool, and a page or a file is to stand in its place")
        self.assertEqual(self.page("b/u.html"), "mine")
        shutil.rmtree(self.out / "b")
        self.put({"t.dita": FILES["t.dita"]})
        site.until("t.dita changed")
        self.assert_fresh()
        self.assert_ended(site)

    def test_quiet_and_verbose(self):
        for word, told in [("-q", []), ("-v", ["page out/index.html", "page out/t.html", "removed out/b/u.html"])]:
            site = self.live(FILES, word)
            for _ in range(200):
                if (self.out / MARKER).exists() and (word == "-q" or len(site.lines) > 5):
                    break
                time.sleep(0.05)
            time.sleep(0.3)
            begun = len(site.lines)
            self.put({"m.ditamap": map_of("t.dita"), "t.dita": topic("<image href='p/a.png'/>", "t", "V")})
            for _ in range(200):
                if not (self.out / "b/u.html").exists():
                    break
                time.sleep(0.05)
            time.sleep(0.5)
            self.assertEqual([line for line in site.lines[begun:] if ": " not in line], told)
            site.end()
