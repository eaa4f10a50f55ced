"""The table of mistakes in the page of the tool: each row is tried, and what the row says must be told.

In a row `..` stands for any words. What the row says of the status is held too."""
import re
import unittest

from cases import TOOL, Case, map_of, topic

ONE = {"m.ditamap": map_of("t.dita")}
TWO = {"m.ditamap": map_of("t.dita", "u.dita"), "u.dita": topic("<p id='a'/>", "u")}
BROKEN = "<topic id='b'>\n <title>B</title>\n <body><p>x</body></topic>"
TERM = "<indexterm>a</indexterm>"
OF_MAP = f"<map><topicref href='t.dita'><topicmeta><keywords>{TERM}</keywords></topicmeta></topicref></map>"
INDEXED = ["docs", "m.ditamap", "out", "--index"]
SVG = "<svg-container><svg/></svg-container>"
LATIN = "<topic id='t'>\n<title>\u00e9</title></topic>"
LARGE = "<map>" + "".join(f"<mapref keyscope='s{place}' href='n.ditamap'/>" for place in range(65)) + "</map>"
MANY = {f"t{number}.dita": topic("") for number in range(64)}
DITA = "<?xml version='1.0' encoding='{}'?>\r\n" + topic("<p>\u00e9</p>")
ENCODED = {f"{codec}.dita": DITA.format(word).encode(codec) for word, codec in [("UTF-8", "utf-8-sig"), ("UTF-16", "utf-16"), ("ISO-8859-1", "latin-1")]}
NAMED = {"a file.dita": topic("<p><xref href='b%C3%A4.dita'/></p>"), "b\u00e4.dita": topic("", "b"), "100%.dita": topic("", "h"), "n#.dita": topic("", "n")}

# The row's mistake: the files, and the words of the call, if they are others than `docs m.ditamap out`
CASES: dict[str, tuple[dict[str, str | bytes], list[str]]] = {
    "broken XML, reached": ({"m.ditamap": map_of("b.dita"), "b.dita": BROKEN}, []),
    "broken XML, not reached": ({**ONE, "t.dita": topic(""), "old/b.dita": BROKEN}, []),
    "a wrong href in a map": ({"m.ditamap": map_of("t.dita", "gone.dita"), "t.dita": topic("")}, []),
    "a wrong href in a topic": ({**ONE, "t.dita": topic("<p><xref href='gone.dita'/></p>")}, []),
    "a wrong id in an xref": ({**TWO, "t.dita": topic("<p><xref href='u.dita#u/b'/></p>")}, []),
    "a wrong id in a conref": ({**TWO, "t.dita": topic("<p conref='u.dita#u/b'/>")}, []),
    "one id twice": ({**ONE, "t.dita": topic("<p id='a'/>\n<ul id='b'><li id='a'/></ul>")}, []),
    "a PDF without `format`": ({"m.ditamap": map_of("t.dita", "a.pdf"), "t.dita": topic(""), "a.pdf": b"%PDF"}, []),
    "a picture or a file that is not there": ({**ONE, "t.dita": topic("<image href='p/a.png'/>")}, []),
    "a key that nobody defined": ({**ONE, "t.dita": topic("<p><keyword keyref='none'/></p>")}, []),
    "a map that includes itself": ({"m.ditamap": "<map><mapref href='n.ditamap'/></map>", "n.ditamap": "<map><mapref href='m.ditamap'/></map>"}, []),
    "a reference out of FOLDER": ({"m.ditamap": map_of("../t.dita")}, []),
    "SVG or an object in the text": ({**ONE, "t.dita": topic(f"<p/>\n<p>{SVG}{SVG}</p><p>{SVG}</p>")}, []),
    "index terms without `--index`": ({**ONE, "t.dita": topic(f"<p>{TERM}{TERM}{TERM}</p>")}, []),
    "`--index`, and no index term in any page": ({**ONE, "t.dita": topic("")}, INDEXED),
    "`index-see`, with `--index`": ({**ONE, "t.dita": topic("<p><indexterm>a<index-see>b</index-see></indexterm></p>")}, INDEXED),
    "an index term without a text, with `--index`": ({**ONE, "t.dita": topic(f"<p><indexterm/>{TERM}</p>")}, INDEXED),
    "an index term in a map, with `--index`": ({"m.ditamap": OF_MAP, "t.dita": topic(f"<p>{TERM}</p>")}, INDEXED),
    "spaces, umlauts, `%`, `#` in names and hrefs": ({"m.ditamap": map_of("a file.dita", "b\u00e4.dita", "100%25.dita", "n%23.dita"), **NAMED}, []),
    "CRLF, a BOM, UTF-16, ISO-8859-1 as the file says": ({"m.ditamap": map_of(*ENCODED), **ENCODED}, []),
    "Latin-1 in a file that says UTF-8 or nothing": ({**ONE, "t.dita": LATIN.encode("latin-1")}, []),
    "another encoding that is not known": ({**ONE, "t.dita": "<?xml version='1.0' encoding='klingon'?>" + topic("")}, []),
    "`&nbsp;` without its DTD": ({**ONE, "t.dita": topic("<p>&nbsp;</p>")}, []),
    "260 elements within one another": ({"m.ditamap": map_of("deep.dita"), "deep.dita": topic("<p>" + "<ph>" * 257 + "</ph>" * 257 + "</p>")}, []),
    "a document of 5 MB": ({"m.ditamap": map_of("large.dita"), "large.dita": topic("<p>" + "x" * (5 << 20) + "</p>")}, []),
    "an empty file": ({**ONE, "t.dita": b""}, []),
    "no such map, status 2": ({"n.ditamap": "<map/>", "b.ditamap": "<map/>"}, ["docs", "gone.ditamap", "out"]),
    "no such DITAVAL, status 2": ({**ONE, "v.ditaval": "<val/>"}, ["docs", "m.ditamap", "out", "gone.ditaval"]),
    "a topic in the place of the map, status 2": ({"t.dita": topic("")}, ["docs", "t.dita", "out"]),
    "more than a limit, status 2": ({"m.ditamap": LARGE, "n.ditamap": map_of(*MANY), **MANY}, []),
    "OUT is FOLDER, status 2": (ONE, ["docs", "m.ditamap", "docs"]),
}

# Rows for which a folder of documents is not enough, and where they are tried
ELSEWHERE = {
    "a document that may not be read": "test_a_document_that_may_not_be_read",
    "no right to write beside OUT, status 2": "test_no_permission",
    "OUT is a file, status 2": "test_a_file_is_refused",
    "OUT is another's folder, status 2": "test_a_folder_of_others_is_refused",
    "OUT has a file in the place of a page, status 2": "test_a_file_of_others_in_the_place_of_a_page_is_refused",
    "a full disk, status 2": "test_a_full_disk",
    "an interrupt, status 2": "test_interrupts",
    "closed input, output or pipe": "test_closed_input_and_output",
    "with `--live`: XML that is broken while one writes": "test_a_file_that_is_not_well_formed_leaves_the_last_good_page",
    "with `--live`: the map or the DITAVAL is removed": "test_maps_and_ditavals_that_are_not_there_for_a_while",
    "with `--live`: the map is no map any more": "test_maps_and_ditavals_that_are_not_there_for_a_while",
    "with `--live`: the desk fails": "test_a_desk_that_dies",
    "`--live` with a program that is older, status 2": "test_a_program_that_does_not_know_serve",
    "`--live` with `--index`, `--strict` or `--keep`, status 2": "test_options",
    "`--port` of which another program has hold, status 2": "test_it_listens_on_this_machine_alone",
}


def rows() -> dict[str, str]:
    """The mistakes of the table, and what it says of each."""
    page = (TOOL / "README.md").read_text(encoding="utf-8")
    table = page.partition("## Mistakes, and what is told")[2].partition("\n## ")[0]
    lines = [line for line in table.splitlines() if line.startswith("| ")][1:]
    return {mistake: told for mistake, told in (line.strip("| ").split(" | ", 1) for line in lines)}


def spans(text: str) -> list[str]:
    """What stands between backticks."""
    return [found[1] for found in re.findall(r"(`+) ?(.+?) ?\1(?!`)", text)]


class Mistakes(Case):
    def test_each_row_is_tried(self):
        self.assertEqual(sorted(rows()), sorted({**CASES, **ELSEWHERE}))
        import test_live
        import test_live_desks
        import test_out
        import test_preview
        found = [it for module in (test_out, test_live, test_live_desks, test_preview) for it in vars(module).values()]
        names = {name for it in found if isinstance(it, type) and issubclass(it, unittest.TestCase) for name in dir(it)}
        self.assertEqual(set(ELSEWHERE.values()) - names, set())

    def test_what_the_rows_say_is_told(self):
        for mistake, said in rows().items():
            if mistake not in CASES:
                continue
            with self.subTest(mistake):
                self.tearDown()
                self.doCleanups()
                self.setUp()
                files, words = CASES[mistake]
                self.put(files)
                result = self.call(*(words or ["docs", "m.ditamap", "out"]), "--no-style")
                self.assertEqual(result.status, 2 if mistake.endswith("status 2") else 0, result)
                lines = [*result.told, *result.errors.splitlines()]
                if said.startswith("nothing"):
                    self.assertEqual(lines, [])
                else:
                    self.assertNotEqual(spans(said), [])
                for span in spans(said):
                    pattern = ".*".join(map(re.escape, span.split("..")))
                    self.assertTrue(any(re.search(pattern, line) for line in lines), (span, lines))
