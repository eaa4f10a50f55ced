"""Pages are dressed by two lines and nothing else, and the sheet names each class that a page of the desk may have."""
import pathlib
import posixpath
import re
import unittest

import style

TOP = pathlib.Path(__file__).resolve().parents[3]
PAGES = TOP / "examples" / "manual" / "pages"
NOTE_TYPES = "note attention caution danger fastpath important notice remember restriction tip trouble warning".split()
HEAD = re.compile(rb'\n<meta name="viewport"[^\n]*<link rel="stylesheet" href="([^"]*)">\n(?=</head>\n<body>\n)')
LINE = re.compile(rb'(?<=</head>\n<body>\n)<nav class="contents"><a href="([^"]*)">([^\n]*)</a></nav>\n')


def manual():
    """Each page of the handbook, by its path, as the desk wrote it."""
    return {path.relative_to(PAGES).as_posix(): path.read_bytes() for path in sorted(PAGES.rglob("*.html"))}


def led_to(page_path, href):
    return posixpath.normpath(posixpath.join(posixpath.dirname(page_path), href.decode()))


class Dressed(unittest.TestCase):
    def test_two_lines_and_nothing_else(self):
        pages = manual()
        self.assertGreater(len(pages), 20)
        for path, page in pages.items():
            with self.subTest(path):
                dressed = style.dress(page, path)
                self.assertEqual(len(HEAD.findall(dressed)), 1)
                self.assertEqual(LINE.sub(b"", HEAD.sub(b"", dressed)), page)

    def test_paths_lead_from_each_folder(self):
        pages = {**manual(), "a/b/c.html": manual()["data.html"]}
        for path, page in pages.items():
            with self.subTest(path):
                dressed = style.dress(page, path)
                self.assertEqual([led_to(path, href) for href in HEAD.findall(dressed)], [style.SHEET])
                leads = [led_to(path, href) for href, _ in LINE.findall(dressed)]
                self.assertEqual(leads, [] if path == "index.html" else ["index.html"])

    def test_the_line_has_the_words_that_are_given(self):
        page = manual()["use/create.html"]
        self.assertEqual(LINE.findall(style.dress(page, "use/create.html")), [(b"../index.html", b"Contents")])
        self.assertEqual(LINE.findall(style.dress(page, "use/create.html", b"A &amp; B")), [(b"../index.html", b"A &amp; B")])

    def test_the_line_leads_to_the_index_if_there_is_one(self):
        pages = manual()
        contents, index = b'<a href="%sindex.html">A</a>', b'<a class="terms" href="%sterms.htm">I</a>'
        for path, up, links in [("index.html", b"", index), ("terms.htm", b"", contents), ("data.html", b"", contents + b" " + index),
                                ("use/create.html", b"../", contents + b" " + index)]:
            page = pages.get(path, pages["data.html"])
            line = b'<nav class="contents">%s</nav>\n' % links.replace(b"%s", up)
            dressed = style.dress(page, path, b"A", b"I")
            self.assertEqual((dressed.count(line), HEAD.sub(b"", dressed).replace(line, b"")), (1, page), path)

    def test_the_title_is_that_of_the_page(self):
        self.assertEqual(style.title_of(manual()["index.html"]), b"Heron watering controller: owner's manual")
        self.assertEqual(style.title_of(b"no page"), b"")

    def test_an_escaped_title_does_not_end_the_head(self):
        page = manual()["data.html"].replace(b"<title>Technical data", b"<title>&lt;/head&gt; of &lt;body&gt;")
        self.assertEqual(LINE.sub(b"", HEAD.sub(b"", style.dress(page, "data.html"))), page)

    def test_an_empty_page_is_dressed(self):
        page = b'<!DOCTYPE html>\n<html><head><meta charset="utf-8"><title>t</title></head>\n<body>\n\n</body></html>\n'
        self.assertEqual(LINE.sub(b"", HEAD.sub(b"", style.dress(page, "t.html"))), page)

    def test_other_bytes_stay(self):
        for other in (b"", b"\xff\xfe<\x00", b"<html><head></head><body></body></html>", b"body { }"):
            self.assertEqual(style.dress(other, "a.html"), other)


class Sheet(unittest.TestCase):
    def setUp(self):
        self.sheet = style.sheet_bytes().decode()

    def test_it_is_short_and_needs_nothing_else(self):
        self.assertLessEqual(self.sheet.count("\n"), 300)
        self.assertEqual(self.sheet.count("{"), self.sheet.count("}"))
        self.assertNotRegex(self.sheet, r"@import|url\(|https?:(?!\")")

    def test_each_variable_that_is_used_has_a_value(self):
        used = set(re.findall(r"var\((--[a-z-]+)\)", self.sheet))
        given = set(re.findall(r"(--[a-z-]+):", self.sheet))
        self.assertEqual(used - given, set())
        self.assertEqual(given - used, set())

    def test_each_type_of_note_has_a_label(self):
        labels = re.findall(r'--([a-z]+): "[^"]+";', self.sheet)
        self.assertEqual(labels[: len(NOTE_TYPES)], NOTE_TYPES)
        for name in NOTE_TYPES[1:]:
            self.assertIn(f".note.{name} {{ --label: var(--{name});", self.sheet)

    def test_each_kind_of_link_has_a_word(self):
        kinds = re.findall(r'codes "([a-z]+)"', (TOP / "crates/html_spec/specs/PageHtml.antt").read_text(encoding="utf-8").split("link_item", 1)[0])
        self.assertEqual(kinds, ["previous", "next", "sibling", "related"])
        for kind in kinds:
            self.assertRegex(self.sheet, rf"nav\.related \.{kind} {{ --label: var\(--{kind}\);")

    def test_flags_are_shown_on_the_screen_in_the_dark_and_in_print(self):
        [rule] = re.findall(r'^\[class\*="flag-"\] \{\n(.*?)^\}', self.sheet, re.MULTILINE | re.DOTALL)
        self.assertIn("--mark: var(--flag);", rule)
        self.assertIn("background: var(--marked);", rule)
        self.assertEqual(len(re.findall(r"^ +--flag: #", self.sheet, re.MULTILINE)), 2)
        self.assertRegex(self.sheet.partition("@media print")[2], r', \[class\*="flag-"\] \{ print-color-adjust: exact;')

    def test_a_rule_for_one_flag_behind_the_others_wins(self):
        """No selector of flags weighs more than one class: the names of elements stand in `:where`, which weighs nothing."""
        selectors = re.findall(r'^(.*)\[class\*="flag-"\] \{', self.sheet, re.MULTILINE)
        self.assertEqual((selectors[0], len(selectors)), ("", 5))
        for selector in selectors[1:4]:
            self.assertRegex(selector, r"^:where\([a-z, ]+\)$")

    def test_drawings_have_white_paper_in_the_dark_if_they_are_flagged_too(self):
        self.assertIn("  img, img[class] { background: #ffffff; }\n", self.sheet.partition("(prefers-color-scheme: dark)")[2])

    def test_a_sheet_of_ones_own(self):
        own = pathlib.Path(__file__)
        self.assertEqual(style.sheet_bytes(own), own.read_bytes())
        with self.assertRaises(OSError):
            style.sheet_bytes(own / "none.css")


if __name__ == "__main__":
    unittest.main()
