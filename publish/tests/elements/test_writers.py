"""What docs/WRITERS.md says of its examples is what the pages have: each example stands there, and its page has this piece."""
import re

import style
from cases import TOP, Case

WRITERS = (TOP / "docs" / "WRITERS.md").read_text(encoding="utf-8")

# an example of WRITERS; the body of a topic in which it stands, if that is not the example itself; a piece of the page
BODIES = [
    ("<uicontrol>Save</uicontrol>", "<p>{}</p>", "<p><span>Save</span></p>"),
    ("<b><uicontrol>Save</uicontrol></b>", "<p>{}</p>", "<p><b><span>Save</span></b></p>"),
    ("<menucascade><uicontrol>File</uicontrol><uicontrol>Print</uicontrol></menucascade>", "<p>{}</p>",
     "<p><span><span>File</span>\n<span>Print</span></span></p>"),
    ("<uicontrol>File</uicontrol> &gt; <uicontrol>Print</uicontrol>", "<p>{}</p>", "<p><span>File</span> &gt; <span>Print</span></p>"),
    ("<lines>Heron Street 7</lines>", "{}", "<pre>Heron Street 7</pre>"),
    ("<sl><sli>short</sli></sl>", "{}", "<ul><li>short</li></ul>"),
    ("<xref href=\"#d/fig1\"/>", "<fig id='fig1'><title>My figure</title></fig><p>{}</p>", "#d__fig1\">Topic</a></p>"),
    ("<xref href=\"#d/fig1\">My figure</xref>", "<fig id='fig1'><title>F</title></fig><p>{}</p>", "#d__fig1\">My figure</a></p>"),
    ("<xref href=\"e.dita\"><desc>tip</desc></xref>", "<p>{}</p>", "<p><a href=\"e.html\"></a></p>"),
    ("<xref href=\"e.dita\">see <term keyref=\"k\"/></xref>", "<p>{}</p>",
     "<a href=\"e.html\">see <span><a href=\"b.html\">Beta</a></span></a>"),
    ("<xref href=\"c.pdf\">Data</xref>", "<p>{}</p>", "<p><span>Data</span></p>"),
    ("a<fn>foot</fn>", "<p>{}</p>", "<p>a<span class=\"fn\">foot</span></p>"),
    ("<tm tmtype=\"tm\">T</tm>", "<p>{}</p>", "<p>T</p>"),
    ("<lq reftitle=\"Book\" href=\"b.dita\">Q</lq>", "{}", "<blockquote>Q</blockquote>"),
    ("<line-through>old</line-through>", "<p>{}</p>", "<p><span>old</span></p>"),
    ("<xmlelement>p</xmlelement>", "<p>{}</p>", "<p><span>p</span></p>"),
    ("<xmlatt>id</xmlatt>", "<p>{}</p>", "<p><span>id</span></p>"),
    ("<keyword keyref=\"nope\"/>", "<p>{}</p>", "<p><span></span></p>"),
    ("<p outputclass=\"x\" xml:lang=\"de\" dir=\"rtl\">", "{}P</p>", "<p>P</p>"),
    ("<p>a <ul>..</ul> b</p>", "<p>a <ul><li/></ul> b</p>", "<p>a <ul><li></li></ul> b</p>"),
    ("<section spectitle=\"Remarks\">", "{}R</section>", "<section>R</section>"),
    ("<dl><dlhead><dthd>Key</dthd><ddhd>Use</ddhd></dlhead>..</dl>",
     "<dl><dlhead><dthd>Key</dthd><ddhd>Use</ddhd></dlhead><dlentry><dt>a</dt><dd>b</dd></dlentry></dl>", "<dl>Key\nUse\n<dt>a</dt>\n<dd>b</dd></dl>"),
    ("<table rowheader=\"firstcol\">", "{}<tgroup cols='1'><tbody><row><entry>a</entry></row></tbody></tgroup></table>", "<td>a</td>"),
    ("<simpletable keycol=\"1\">", "{}<strow><stentry>a</stentry></strow></simpletable>", "<td>a</td>"),
    ("<note type=\"other\" othertype=\"Hint\">", "{}n</note>", "<div class=\"note other\">n</div>"),
    ("<image href=\"p.png\" width=\"300\" placement=\"break\"/>", "{}", "<img src=\"p.png\" alt=\"\">"),
    ("<image href=\"p.png\"><longdescref href=\"b.dita\"/></image>", "{}", "<img src=\"p.png\" alt=\"\"></div>"),
    ("<fig><title>F</title><desc>D</desc>..</fig>", "<fig><title>F</title><desc>D</desc></fig>", "<figure><figcaption>F</figcaption>\n</figure>"),
    ("<imagemap>", "{}<image href='p.png'/><area><shape>rect</shape><coords>0,0,5,5</coords><xref href='b.dita'/></area></imagemap>",
     "<span>rect</span>\n<span>0,0,5,5</span>\n<a href=\"b.html\">Beta</a>"),
    ("<codeblock><coderef href=\"x.py\" format=\"txt\"/></codeblock>", "{}", "<pre><a href=\"x.py\">x.py</a></pre>"),
    ("<syntaxdiagram>", "{}<groupseq><kwd>a</kwd><var>b</var></groupseq></syntaxdiagram>", "<div><span>a</span>\n<span>b</span></div>"),
    ("<p proprietary=\"x\">", "{}P</p>", "<p>P</p>"),
    ("<p platform=\"os(linux)\">", "{}P</p>", "<p>P</p>"),
]
OTHERS = {
    "b.dita": "<topic id='b'><title>Beta</title></topic>",
    "e.dita": "<topic id='e'><title>Else</title></topic>",
    "p.png": "", "x.py": "",
    "v.ditaval": "<val><prop att='platform' val='linux' action='exclude'/><prop att='proprietary' val='x' action='exclude'/></val>",
}
TASK = "<task id='d'><title>Topic</title><taskbody><steps>{}</steps></taskbody></task>"
KEYS = "<keydef keys='v'><topicmeta><keywords><keyword>4.2</keyword></keywords></topicmeta></keydef><keydef keys='k' href='b.dita'/>"


def fenced(heading: str, language: str) -> str:
    """The block of this language in the section of WRITERS under a heading."""
    section = WRITERS.partition(f"\n## {heading}\n")[2].partition("\n## ")[0]
    [block] = re.findall(f"```{language}\n(.*?)```", section, re.DOTALL)
    return block


def topic(title: str, body: str = "", more: str = "") -> str:
    return f"<topic id='d'>{title}<body>{body}</body>{more}</topic>"


class Writers(Case):
    def pages(self, documents: dict[str, str], references: str, attributes: str = "", head: str = "<title>M</title>", *words: str) -> None:
        """Publishes these documents by a map with these references."""
        self.publish({**OTHERS, **documents, "m.ditamap": f"<map {attributes}>{head}{references}{KEYS}</map>"}, *words)

    def has(self, example: str, page: str, piece: str) -> None:
        with self.subTest(example):
            self.assertIn(f"`{example}`", WRITERS)
            self.assertIn(piece, self.page(page))

    def test_examples_in_the_body_of_a_topic(self):
        documents = {f"n{number}.dita": topic("<title>Topic</title>", body.replace("{}", example))
                     for number, (example, body, _) in enumerate(BODIES)}
        references = "".join(f"<topicref href='{name}'/>" for name in [*documents, "b.dita", "e.dita"])
        self.pages(documents, references, "", "<title>M</title>", "--filter", "v.ditaval")
        for number, (example, _, piece) in enumerate(BODIES):
            self.has(example, f"n{number}.html", piece)

    def test_steps(self):
        step, part = "<step><cmd>A.</cmd><info>B.</info></step>", "<stepsection>At the pump</stepsection>"
        self.pages({"s.dita": TASK.format(step), "t.dita": TASK.format(part + "<step importance='optional'><cmd>C</cmd></step>")},
                   "<topicref href='s.dita'/><topicref href='t.dita'/>")
        self.has(step, "s.html", "<ol><li><span>A.</span>\nB.</li></ol>")
        self.has(part, "t.html", "<ol><li>At the pump</li>\n<li><span>C</span></li></ol>")

    def test_titles(self):
        key, filtered, empty = "<title>A <keyword keyref=\"v\"/></title>", "<title>E <ph platform=\"x\">for x</ph></title>", "<title/>"
        short = "<titlealts><navtitle>Short</navtitle></titlealts>"
        locked, unlocked = '<topicref href="a.dita" navtitle="A 4.2" locktitle="yes"/>', '<topicref href="a.dita" navtitle="Short"/>'
        self.pages({"a.dita": topic(key), "g.dita": topic(filtered), "f.dita": topic(empty), "x.ditaval":
                    "<val><prop att='platform' val='x' action='exclude'/></val>",
                    "h.dita": f"<topic id='d'><title>Long</title>{short}</topic>"},
                   f"{locked}{unlocked}<topicref href='g.dita'/><topicref href='f.dita'/><topicref href='h.dita'/>", "", "<title>M</title>",
                   "--filter", "x.ditaval")
        self.has(key, "a.html", "<title>A</title>")
        self.has(key, "a.html", "<h1>A <span>4.2</span></h1>")
        self.has(locked, "index.html", "<a href=\"a.html\">A 4.2</a>")
        self.has(unlocked, "index.html", "<a href=\"a.html\">A</a>")
        self.has(filtered, "g.html", "<h1>E </h1>")
        self.has(filtered, "index.html", ">E for x</a>")
        self.has(empty, "f.html", "<h1></h1>")
        self.has(empty, "index.html", ">f.dita</a>")
        self.has(short, "index.html", ">Long</a>")

    def test_a_title_of_a_book_in_parts(self):
        title = "<booktitle><booklibrary>L</booklibrary><mainbooktitle>M</mainbooktitle></booktitle>"
        self.publish({**OTHERS, "m.ditamap": f"<bookmap>{title}<chapter href='b.dita'/></bookmap>"})
        self.has(title, "index.html", "<h1>L M</h1>")

    def test_submaps(self):
        bare, held = '<mapref href="use.ditamap"/>', '<topichead navtitle="Use"><mapref href="use.ditamap"/></topichead>'
        self.pages({"use.ditamap": "<map><title>Use</title><topicref href='b.dita'/></map>"}, bare + held)
        self.has(bare, "index.html", "<ul><li><a href=\"b.html\">Beta</a></li><li>Use<ul><li><a href=\"b.html\">Beta</a></li></ul></li></ul>")
        self.has(held, "index.html", "<li>Use<ul>")

    def test_a_topicref_to_an_inner_topic(self):
        reference = '<topicref href="b.dita#inner"/>'
        self.pages({"b.dita": "<topic id='b'><title>Beta</title><topic id='inner'><title>In</title></topic></topic>"}, reference)
        self.has(reference, "index.html", "<ul><li><a href=\"b.html\">Beta</a></li></ul>")

    def test_no_link_where_one_may_expect_it(self):
        cell = '<relcell><topicref href="https://ex.org" scope="external" format="html"/></relcell>'
        sequence = '<topichead navtitle="D" collection-type="sequence"><mapref href="d.ditamap"/></topichead>'
        tree = '<topicref href="a.dita"><topicref href="b.dita"/></topicref>'
        documents = {"a.dita": topic("<title>A</title>"), "d.ditamap": "<map><topicref href='a.dita'/><topicref href='b.dita'/></map>"}
        for example, references in ((cell, f"<topicref href='a.dita'/><reltable><relrow><relcell><topicref href='a.dita'/></relcell>{cell}"
                                           "</relrow></reltable>"), (sequence, sequence), (tree, tree)):
            self.pages(documents, references)
            self.has(example, "a.html", "<article")
            self.assertNotIn("<nav", self.page("a.html"), example)

    def test_links(self):
        site = ('<related-links><link href="https://ex.org" scope="external" format="html"><linktext>Site</linktext></link>'
                "</related-links>")
        words = '<link href="b.dita"><linktext>My words</linktext></link>'
        listed = '<linklist><title>See also</title><link href="b.dita"><desc>tip</desc></link></linklist>'
        title = "<title>T</title>"
        documents = {"a.dita": topic(title, "", site), "c.dita": topic(title, "", f"<related-links>{words}</related-links>"),
                     "f.dita": topic(title, "", f"<related-links>{listed}</related-links>")}
        self.pages(documents, "<topicref href='a.dita'/><topicref href='f.dita'/>"
                              "<topicgroup collection-type='family'><topicref href='b.dita'/><topicref href='c.dita'/></topicgroup>")
        self.has(site, "a.html", '<li class="related"><a href="https://ex.org">Site</a></li>')
        self.has(words, "c.html", '<ul><li class="sibling"><a href="b.html">Beta</a></li></ul>')
        self.has(listed, "f.html", '<ul><li class="related"><a href="b.html">Beta</a></li></ul>')

    def test_flags(self):
        part, whole = '<info><p audience="expert">B.</p></info>', '<info audience="expert">B.</info>'
        body = "<p audience='expert'>P</p><note audience='expert'>N</note><p platform='linux'>L</p><p audience='internal'>I</p>"
        steps = "".join(f"<step><cmd>A.</cmd>{info}</step>" for info in (part, whole))
        documents = {"a.dita": topic("<title>T</title>", body), "s.dita": TASK.format(steps), "w.ditaval": fenced("Flags", "xml")}
        references = "<topicref href='a.dita' audience='expert'/><topicref href='s.dita'/>"
        self.pages(documents, references, "", "<title>M</title>", "--filter", "w.ditaval")
        self.has('<p class="flag-audience-expert">', "a.html", '<p class="flag-audience-expert">P</p>')
        self.has('<div class="note flag-audience-expert">', "a.html",
                 '<div class="note flag-audience-expert">N</div>\n<p class="flag-platform-linux">L</p>')
        self.assertNotIn("I</p>", self.page("a.html"))
        self.has(part, "s.html", '<p class="flag-audience-expert">B.</p>')
        self.has(whole, "s.html", "<li><span>A.</span>\nB.</li>")
        self.has('nav.toc [data-audience~="expert"] { background: var(--tint); }', "index.html", '<li data-audience="expert">')

    def test_flags_with_a_look_of_their_own(self):
        rules = fenced("Flags", "css")
        self.assertEqual(set(re.findall(r"\.(flag-[a-z-]+)", rules)), {"flag-audience-expert"})
        self.assertLessEqual(set(re.findall(r"--[a-z]+", rules)), set(re.findall(r"var\((--[a-z]+)\)", style.sheet_bytes().decode())))
        self.put({"m.ditamap": "<map><topicref href='a.dita'/></map>",
                  "a.dita": topic("<title>T</title>", "<p audience='expert' product='v2.1'>P</p>"),
                  "w.ditaval": fenced("Flags", "xml").replace("</val>", "<prop att='product' action='flag'/></val>")})
        (self.root / "own.css").write_bytes(style.sheet_bytes() + rules.encode())
        self.assertEqual(self.call("docs", "m.ditamap", "out", "w.ditaval", "--style", "own.css").told, [])
        self.assertTrue(self.page(style.SHEET).endswith(rules))
        self.has(".flag-product-v2\\.1", "a.html", '<p class="flag-audience-expert flag-product-v2.1">P</p>')

    def test_what_a_ditaval_says_of_flags_beside_their_names(self):
        colour, revision = '<prop att="audience" val="new" action="flag" color="red"/>', '<revprop val="2.1" action="flag"/>'
        documents = {"a.dita": topic("<title>T</title>", "<p audience='new'>N</p><p rev='2.1'>R</p>"), "w.ditaval": f"<val>{colour}{revision}</val>"}
        self.pages(documents, "<topicref href='a.dita'/>", "", "<title>M</title>", "--filter", "w.ditaval")
        self.has(colour, "a.html", '<p class="flag-audience-new">N</p>')
        self.has(revision, "a.html", "<p>R</p>")

    def test_the_index(self):
        term, see = "<indexterm>valve</indexterm>", "<indexterm>tap<index-see>valve</index-see></indexterm>"
        first, last, keyed = '<indexterm start="r">rain</indexterm>', '<indexterm end="r"/>', '<indexterm keyref="v"/>'
        of_map, link = f"<topicmeta><keywords>{term}</keywords></topicmeta>", '<topicref href="terms.htm" format="html" navtitle="Index"/>'
        prolog = "<title>One</title>" + fenced("An index", "xml")
        body = f"<p>x{see}{first}{keyed}<indexterm>Valve</indexterm><indexterm>\u00e4</indexterm></p>"
        documents = {"a.dita": f"<topic id='d'>{prolog}</topic>", "c.dita": topic("<title>Two</title>", body),
                     "f.dita": topic("<title>Three</title>", f"<p>{last}{term}</p>")}
        references = f"<topicref href='b.dita'>{of_map}</topicref><topicref href='a.dita'/><topicref href='c.dita'/><topicref href='f.dita'/>{link}"
        self.publish({**OTHERS, **documents, "m.ditamap": f"<map>{references}{KEYS}</map>"}, "--index")
        two = '<a href="c.html">Two</a>'
        self.assertIn(f'<ul><li>Valve {two}</li><li>rain {two}</li><li>tap {two}</li><li>valve <a href="f.html">Three</a></li>'
                      f'<li>valves<ul><li>cleaning <a href="a.html">One</a></li></ul></li><li>\u00e4 {two}</li></ul>', self.page("terms.htm"))
        for example in (term, see, first, last, keyed, of_map):
            self.assertIn(f"`{example}`", WRITERS)
        self.has(link, "index.html", '<li><a href="terms.htm">Index</a></li>')
        self.assertNotIn("valve", self.page("f.html"))
