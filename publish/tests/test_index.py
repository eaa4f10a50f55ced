"""The index of terms, which `--index` makes. The columns of topics: `<body>` of `topic()` ends in column 36."""
import html
import os
import re
import urllib.parse

import style
from cases import Case, map_of, topic

PUMP, VALVE = "<indexterm>pump<indexterm>clean</indexterm></indexterm>", "<indexterm>valve</indexterm>"
FILES = {"m.ditamap": map_of("t.dita", "sub/u.dita"), "t.dita": topic(f"<p>x{VALVE}{PUMP}</p>"),
         "sub/u.dita": topic(f"<p>y{VALVE}</p>", "u", "U &lt; 1")}
LIST = ('<nav class="terms"><h1>Index</h1><ul><li>pump<ul><li>clean <a href="t.html">T</a></li></ul></li>'
        '<li>valve <a href="t.html">T</a> <a href="sub/u.html">U &lt; 1</a></li></ul></nav>')
HEAD = '<!DOCTYPE html>\n<html><head><meta charset="utf-8"><title>{}</title>\n<meta name="viewport" content="width=device-width, ' \
       'initial-scale=1"><link rel="stylesheet" href="dita_desk.css">\n</head>\n<body>\n'
END = "\n</body></html>\n"
NOTE = "there is no index: no page has an index term with a text"


class Index(Case):
    def dressed(self, files: dict[str, str], *words: str) -> list[str]:
        """Publishes these files with the style, and gives what is told."""
        self.put(files)
        result = self.call("docs", "m.ditamap", "out", *words)
        self.assertEqual((result.status, result.errors), (0, ""), result)
        return result.told

    def line(self, page: str) -> str:
        """The line of a page that leads to the contents and to the index, or nothing."""
        return "".join(re.findall('<nav class="contents">.*', self.page(page)))


class Wanted(Index):
    def test_the_index_is_there_and_dressed_as_other_pages(self):
        self.assertEqual(self.dressed(FILES, "--index"), [])
        self.assertEqual(self.page("terms.htm"), HEAD.format("Index") + f'<nav class="contents"><a href="index.html">M</a></nav>\n{LIST}' + END)

    def test_each_page_leads_to_it(self):
        self.dressed(FILES, "--index")
        self.assertEqual(self.line("index.html"), '<nav class="contents"><a class="terms" href="terms.htm">Index</a></nav>')
        self.assertEqual(self.line("t.html"), '<nav class="contents"><a href="index.html">M</a> <a class="terms" href="terms.htm">Index</a></nav>')
        self.assertEqual(self.line("sub/u.html"),
                         '<nav class="contents"><a href="../index.html">M</a> <a class="terms" href="../terms.htm">Index</a></nav>')

    def test_it_is_a_page_that_is_counted_and_listed(self):
        result = self.publish(FILES, "--index", "-v")
        self.assertIn(f"page out/terms.htm\n4 pages in {self.out}, 0 faults\n", result.output)

    def test_its_links_lead_to_pages_that_are_there_if_renamed_too(self):
        named = {"index.dita": "First", "a file.dita": "Space", "100%.dita": "Hundred", "b\u00e4/no#.dita": "Number", "s.dita": "Scoped"}
        references = "".join(f'<topicref href="{urllib.parse.quote(name)}"/>' for name in named if name != "s.dita")
        twice = '<topicref keyscope="a" href="s.dita"/><topicref keyscope="b" href="s.dita"/>'
        told = self.dressed({"m.ditamap": f"<map>{references}{twice}</map>",
                             **{name: topic(f"<p>{VALVE}</p>", "x", title) for name, title in named.items()}}, "--index")
        self.assertEqual([line.rpartition(": ")[2] for line in told], ["it is `index_2.html` (NameChanged)", "it is `s_2.html` (NameChanged)"])
        links = re.findall('<a href="([^"]*)">([^<]*)</a>', self.page("terms.htm").partition("<ul>")[2])
        paths = [urllib.parse.unquote(html.unescape(href)) for href, _ in links]
        self.assertEqual(paths, ["index_2.html", "a file.html", "100%.html", "b\u00e4/no#.html", "s.html", "s_2.html"])
        for path, (_, title) in zip(paths, links):
            self.assertIn(f"<h1>{title}</h1>", self.page(path))

    def test_terms_that_a_filter_takes_away_are_not_in_it(self):
        rules = {"v.ditaval": "<val><prop att='audience' val='x' action='exclude'/></val>"}
        body = f"<p audience='x'>{PUMP}</p><p>{VALVE}<indexterm audience='x'>tap</indexterm></p>"
        self.publish({"m.ditamap": map_of("t.dita"), "t.dita": topic(body), **rules}, "--index", "--filter", "v.ditaval")
        self.assertIn('<ul><li>valve <a href="t.html">T</a></li></ul>', self.page("terms.htm"))

    def test_without_a_style_each_page_is_that_of_the_desk(self):
        self.publish(FILES, "--index", "--keep", "kept")
        self.assertEqual(self.pages(), self.desk_pages("terms"))
        self.assertEqual(self.page("terms.htm"), '<!DOCTYPE html>\n<html><head><meta charset="utf-8"><title>Index</title></head>\n<body>\n'
                         + LIST + END)
        self.assertFalse((self.out / style.SHEET).exists())

    def test_a_link_to_it_from_the_map_and_from_a_topic(self):
        reference = '<topicref href="terms.htm" format="html" navtitle="Index"/>'
        files = {**FILES, "m.ditamap": f'<map><topicref href="t.dita"/>{reference}</map>',
                 "t.dita": topic(f"<p>{VALVE}<xref href='terms.htm' format='html'>Index</xref></p>")}
        self.assertEqual(self.publish(files, "--index").told, [])
        self.assertIn('<li><a href="terms.htm">Index</a></li>', self.page("index.html"))
        self.assertIn('<a href="terms.htm">Index</a>', self.page("t.html"))

    def test_a_file_in_whose_place_it_stands(self):
        files = {"m.ditamap": map_of("t.dita"), "t.dita": topic(f"<p>{VALVE}<xref href='terms.htm' format='html'>T</xref></p>"), "terms.htm": "mine"}
        self.assertEqual(self.publish(files, "--index").told, ["docs/t.dita:1:68: the file `terms.htm` is not copied: a page has its name"])
        self.assertIn(">valve <", self.page("terms.htm"))

    def test_one_that_is_too_large_is_told(self):
        large = f"<indexterm>{'&amp;' * 900_000}</indexterm>"
        result = self.publish({"m.ditamap": map_of("t.dita"), "t.dita": topic(f"<p>{large}</p>")}, "--index", "--strict", status=1)
        self.assertEqual(result.told, ["out/terms.htm: the index has more than 4 MiB: it is empty"])


class NotThere(Index):
    def test_without_a_term_there_is_no_page_and_no_link(self):
        files = {"m.ditamap": map_of("t.dita"), "t.dita": topic("<p>x</p>")}
        self.put(files)
        result = self.call("docs", "m.ditamap", "out", "--index", "--strict")
        self.assertEqual((result.status, result.output), (0, f"{NOTE}\n2 pages in {self.out}, 0 faults\n"))
        with_index = self.pages()
        self.assertEqual(self.dressed(files), [])
        self.assertEqual((self.pages(), sorted(with_index)), (with_index, ["index.html", "t.html"]))
        self.assertEqual(self.call("docs", "m.ditamap", "out", "--index", "-q").output, "")

    def test_without_a_term_and_without_a_style(self):
        result = self.publish({"m.ditamap": map_of("t.dita"), "t.dita": topic("<p>x</p>")}, "--index", "--keep", "kept")
        self.assertEqual(result.told, [NOTE])
        self.assertEqual((self.pages(), sorted(self.pages())), (self.desk_pages("clean"), ["index.html", "t.html"]))

    def test_without_the_option_pages_are_as_they_were(self):
        told = self.dressed({**FILES, "m.ditamap": map_of("t.dita")}, "--keep", "kept")
        self.assertEqual(told, ["docs/t.dita:1:41: warning: pages show nothing of <indexterm>: 2 elements of the sources"])
        line = '<nav class="contents"><a href="index.html">M</a></nav>\n'
        self.assertEqual((self.page("index.html"), self.page("t.html"), len(self.pages())), (
            HEAD.format("M") + '<nav class="toc"><h1>M</h1><ul><li><a href="t.html">T</a></li></ul></nav>' + END,
            HEAD.format("T") + line + '<article id="t"><h1>T</h1>\n<div class="body"><p>x</p></div></article>' + END, 2))
        self.publish({}, "--keep", "kept")
        self.assertEqual(self.pages(), self.desk_pages("clean"))

    def test_it_goes_if_it_is_not_asked_for_any_more(self):
        self.publish(FILES, "--index")
        self.publish(FILES)
        self.assertEqual(sorted(self.pages()), ["index.html", "sub/u.html", "t.html"])

    def test_a_file_of_others_in_its_place_is_refused(self):
        self.publish(FILES)
        (self.out / "terms.htm").write_text("mine")
        result = self.publish(FILES, "--index", status=2)
        self.assertIn("out/terms.htm: was not made by this tool", result.errors)
        self.assertEqual(self.page("terms.htm"), "mine")


class Lost(Index):
    """What an index has nothing of."""

    def told(self, body: str, *words: str, references: str = "<topicref href='t.dita'/>") -> list[str]:
        return self.publish({"m.ditamap": f"<map>{references}</map>", "t.dita": topic(body)}, *words).told

    def test_elements_in_terms_that_are_none(self):
        body = "<p><indexterm>a<index-see>b</index-see></indexterm><indexterm>c<index-see-also>a</index-see-also><index-sort-as>d</index-sort-as>" \
               "</indexterm><indexterm>e<index-see>a</index-see></indexterm></p>"
        self.assertEqual(self.told(body, "--index"), [
            "docs/t.dita:1:52: warning: the index shows nothing of <index-see>: 2 elements of the sources",
            "docs/t.dita:1:100: warning: the index shows nothing of <index-see-also>: 1 element of the sources",
            "docs/t.dita:1:134: warning: the index shows nothing of <index-sort-as>: 1 element of the sources"])
        self.assertIn("<li>a <a", self.page("terms.htm"))
        self.assertEqual(self.told(body), ["docs/t.dita:1:40: warning: pages show nothing of <indexterm>: 3 elements of the sources"])

    def test_terms_without_a_text(self):
        body = "<p><indexterm/><indexterm> <indexterm>a</indexterm><index-see>b</index-see></indexterm><indexterm>\n</indexterm></p>"
        lines = self.told(body, "--index")
        self.assertEqual(lines, [
            "docs/t.dita:1:40: warning: the index shows nothing of <indexterm> without a text: 3 elements of the sources",
            "docs/t.dita:1:88: warning: the index shows nothing of <index-see>: 1 element of the sources", NOTE])

    def test_terms_that_need_no_text_of_their_own(self):
        body = "<p><indexterm start='r'>a</indexterm><indexterm end='r'/><indexterm id='i'><ph>b</ph></indexterm><indexterm conref='#t/i'/></p>"
        self.assertEqual(self.told(body, "--index"), [])
        self.assertIn('<ul><li>a <a href="t.html">T</a></li><li>b <a href="t.html">T</a></li></ul>', self.page("terms.htm"))

    def test_terms_in_maps(self):
        references = f"<topicref href='t.dita'><topicmeta><keywords>{PUMP}</keywords></topicmeta></topicref>"
        self.assertEqual(self.told(VALVE, "--index", references=references),
                         ["docs/m.ditamap:1:51: warning: the index shows nothing of <indexterm> in maps: 1 element of the sources"])
        self.assertNotIn("pump", self.page("terms.htm"))


class Desk(Case):
    def test_a_desk_without_an_index(self):
        older = self.root / "older"
        older.write_text("#!/bin/sh\necho >&2 \"error: invalid value '$1'\"\necho >&2\necho >&2 'dita_desk: Words'\nexit 2\n")
        older.chmod(0o755)
        self.put(FILES)
        result = self.call("docs", "m.ditamap", "out", "--index", env=os.environ | {"DITA_DESK": str(older)})
        self.assertEqual((result.status, result.errors), (
            2, "publish: the desk is of another version than this tool, and does not know what it is asked for: error: invalid value 'terms'\n"
            "publish: nothing is published\n"))
