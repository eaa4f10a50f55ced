"""A live site: its desks, what can't begin, and what a browser gets. One test has the program that is found, if it knows `serve`."""
from __future__ import annotations

import os
import pathlib
import re
import sys
import urllib.request

from cases import TOOL, map_of, topic
from live_cases import FILES, GIVEN, SECONDS, Live
from publishing import program
from publishing.document import Document
from publishing.session import Edit, in_groups


class Desks(Live):
    def test_a_history_that_is_full(self):
        os.environ["DESK_FULL"] = "4"
        site = self.live(FILES)
        site.begun()
        for count in range(4):
            self.put({"t.dita": topic(f"<p>Edit {count}</p>")})
            lines = site.until("t.dita changed")
            self.assertRegex(lines[-1], "1 page made, 2 found again" if count in (0, 2) else "3 pages made, 0 found again")
            self.assertEqual([re.sub("^[0-9:]{8} ", "", line) for line in lines[:-1]],
                             [] if count in (0, 2) else ["the history of the desk is full: a new desk takes the folder, and makes all pages anew"])
            self.assertIn(f"Edit {count}", self.page("t.html"))
        self.assert_fresh()
        self.assert_ended(site)

    def test_a_desk_that_dies(self):
        os.environ["DESK_DIES"] = str(self.root.parent / f"{self.root.name}.dies")
        site = self.live(FILES)
        site.begun()
        pathlib.Path(os.environ["DESK_DIES"]).touch()
        self.put({"t.dita": topic("<p>Edit</p>")})
        lines = site.until("t.dita changed")
        self.assertRegex(lines[0], "memory ran out: .*: a new desk takes the folder, and makes all pages anew")
        self.assert_fresh()
        self.assert_ended(site)

    def test_a_desk_that_is_full_from_the_beginning_or_answers_what_does_not_fit(self):
        for name, value, said in [("DESK_FULL", "1", "the history of the desk is full"),
                                  ("DESK_ANSWERS", "entry 0 1 1 conflict 7\n", "the desk's answer does not fit: request 1: 1 conflict 7"),
                                  ("DESK_ANSWERS", "script BadName 3\n", "the desk's answer can't be read: `script BadName 3` begins no entry")]:
            os.environ[name] = value
            site = self.live(FILES)
            self.assertEqual(site.call.wait(SECONDS), 2)
            self.assertEqual(site.end(0)[1], f"publish: {said}\npublish: nothing is published\n")
            self.assertEqual(self.left(), [])
            del os.environ[name]

    def test_a_program_that_does_not_know_serve(self):
        os.environ["DITA_DESK"] = f"{sys.executable} {TOOL / 'tests' / 'batch_desk.py'}"
        self.put(FILES)
        result = self.call("--live", "docs", "m.ditamap", "out")
        self.assertEqual((result.status, self.left()), (2, []))
        self.assertIn("--live needs a program with the mode `serve`, and this one is older, or does not start: `tools/build` proves and builds one",
                      result.errors)

    def test_what_can_not_begin(self):
        self.put(FILES | {"broken.ditamap": "<map>"})
        for words, said in [(("docs", "gone.ditamap", "out"), "docs/gone.ditamap: there is no such file"),
                            (("docs", "broken.ditamap", "out"), "docs/broken.ditamap: can't be read"),
                            (("docs", "t.dita", "out"), "docs/t.dita: `t.dita` is no map, so nothing was built"),
                            (("docs", "m.ditamap", "docs"), "docs: the documents lie in this folder"),
                            (("docs", "m.ditamap", "out", "--style", "gone.css"), "gone.css: the style sheet can't be read")]:
            result = self.call("--live", *words)
            self.assertEqual((result.status, self.left()), (2, []), result)
            self.assertIn(f"publish: {said}", result.errors)
            self.assertIn("publish: nothing is published\n", result.errors)

    def test_options(self):
        self.put(FILES)
        for words, said in [(("--live", "--index"), "--index can't stand beside --live: "), (("--live", "--strict"), "--strict can't stand beside --live: "),
                            (("--live", "--keep", "kept"), "--keep can't stand beside --live: "), (("--port", "8080"), "--port stands beside --live alone"),
                            (("--live", "--port", "65536"), "`65536` is no number from 0 to 65535"), (("--live", "--port", "x"), "`x` is no number")]:
            result = self.call("docs", "m.ditamap", "out", *words)
            self.assertEqual((result.status, self.left()), (2, []), result)
            self.assertIn(f"publish: {said}" if said.startswith("--") else said, result.errors)

    def test_groups_have_at_most_a_thousand_edits_and_four_mebibytes(self):
        edits = [(Edit(str(number), Document(str(number), ""), 0), b"x" * 4000) for number in range(2_500)]
        groups = list(in_groups(edits))
        self.assertEqual([it for group in groups for it in group], edits)
        self.assertEqual([len(group) for group in groups], [1_000, 1_000, 500])
        large = list(in_groups([(edit, b"x" * (1 << 20)) for edit, _ in edits[:10]] + [(edits[0][0], b"x" * (5 << 20))]))
        self.assertEqual([len(group) for group in large], [4, 4, 2, 1])


class Browser(Live):
    def test_the_pages_are_shown_and_each_build_is_told(self):
        site = self.live(FILES)
        address = site.begun()
        with urllib.request.urlopen(address + "t.html", timeout=10) as answer:
            page = answer.read().decode()
        since = re.search('<script src="/.publish-live.js" data-since="([0-9a-f]+-1)"></script>', page)[1]
        self.assertEqual(re.sub("\n<script.*\n", "", page), self.page("t.html"))
        with urllib.request.urlopen(f"{address}.publish-live?since={since}", timeout=SECONDS) as stream:
            self.put({"t.dita": topic("<image href='p/a.png'/><p>Told</p>")})
            self.assertEqual([stream.readline() for _ in range(3)][1], b'data: ["/t.html"]\n')
            with urllib.request.urlopen(address + "t.html", timeout=10) as answer:
                self.assertIn(b"<p>Told</p>", answer.read())
            self.put({"p/a.png": b"b"})
            self.assertEqual([stream.readline() for _ in range(3)][1], b'data: ["/p/a.png"]\n')
            self.put({"m.ditamap": map_of("t.dita")})
            self.assertEqual([stream.readline() for _ in range(3)][1], b'data: ["/b/u.html", "/index.html"]\n')
        self.assert_ended(site)


class Found(Live):
    def test_the_program_that_is_found(self):
        del os.environ["DITA_DESK"]
        os.environ.update({"DITA_DESK": GIVEN} if GIVEN else {})
        if "serve" not in program.modes(program.find()):
            self.skipTest("the program that is found is older than `serve`")
        site = self.live(FILES)
        site.begun()
        self.assert_fresh()
        self.put({"b/u.dita": topic("<p>Two</p>", "u", "U")})
        self.assertRegex(site.until("changed")[-1], "b/u.dita changed: 1 page made, 2 found again, 0 faults$")
        self.put({"b/u.dita": topic("<ul><li>" * 130 + "</li></ul>" * 130), "t.dita": topic("", "t", "V")})
        site.until("TooDeep")
        self.assert_fresh()
        self.put({"b/u.dita": FILES["b/u.dita"]})
        site.until("u.dita changed: .* 0 faults")
        self.assert_fresh()
        self.assert_ended(site)
