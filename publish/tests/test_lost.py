"""Nothing lost without a word. The columns of topics: `<body>` of `topic()` ends in column 36."""
from cases import Case, map_of, topic


def nested(levels: int) -> str:
    return topic("<p>" + "<ph>" * levels + "deep" + "</ph>" * levels + "</p>")


class Lost(Case):
    def told(self, body: str, *words: str, **more: str | bytes) -> list[str]:
        """What is told of the topic `t.dita` with this body."""
        return self.publish({"m.ditamap": map_of("t.dita"), "t.dita": topic(body), **more}, *words).told

    def test_a_picture_or_a_file_that_is_not_there(self):
        told = self.told("<image href='p/a.png'/>\n<p><xref href='a.pdf' format='pdf'>A</xref></p>\n<fig><image href='p/a.png'/></fig>"
                         "<p><xref href='p' format='html'>P</xref></p>", **{"p/b.png": b""})
        self.assertEqual(told, [
            "docs/t.dita:1:37: the picture `p/a.png` is missing",
            "docs/t.dita:2:4: the file `a.pdf` is missing",
            "docs/t.dita:3:6: the picture `p/a.png` is missing",
            "docs/t.dita:3:38: the file `p` is a folder"])

    def test_a_picture_that_is_a_link_to_nothing(self):
        (self.docs / "a.png").symlink_to("gone.png")
        self.assertEqual(self.told("<image href='a.png'/>"), ["docs/t.dita:1:37: the picture `a.png` is missing"])

    def test_a_picture_by_a_key(self):
        result = self.publish({"m.ditamap": "<map>\n<keydef keys='k' href='gone.png' format='png'/><topicref href='t.dita'/></map>",
                               "t.dita": topic("<image keyref='k'/>")})
        self.assertEqual(result.told, ["docs/m.ditamap:2:1: the picture `gone.png` is missing"])

    def test_what_a_filter_takes_away_is_not_told(self):
        told = self.told("<p audience='x'><image href='a.png'/><xref href='#t/none'/></p>", "--filter", "v.ditaval",
                         **{"v.ditaval": "<val><prop att='audience' val='x' action='exclude'/></val>"})
        self.assertEqual(told, [])

    def test_an_xref_to_an_id_that_is_in_no_page(self):
        files = {"m.ditamap": map_of("t.dita", "u.dita"), "u.dita": topic("<p id='a'/>", "u"),
                 "t.dita": topic("<p><xref href='u.dita#u/b'/></p>\n<p><xref href='u.dita#v'/><xref href='#./c'/></p>"
                                 "<p><xref href='u.dita#u/a'/><xref href='u.dita#u'/></p>")}
        so = "the page `u.html` has no such element, and the link leads to its top"
        self.assertEqual(self.publish(files).told, [
            f"docs/t.dita:1:40: `u.dita#u/b` leads to no element: {so}",
            f"docs/t.dita:2:4: `u.dita#v` leads to no element: {so}",
            f"docs/t.dita:2:27: `#./c` leads to no element: {so.replace('u.html', 't.html')}"])

    def test_an_xref_by_a_key_to_an_id_that_is_in_no_page(self):
        result = self.publish({"m.ditamap": "<map><topicref keys='k' href='t.dita'/></map>", "t.dita": topic("<p><xref keyref='k/b'/></p>")})
        self.assertEqual(result.told, ["docs/t.dita:1:40: `k/b` leads to no element: the page `t.html` has no such element, and the link "
                                       "leads to its top"])

    def test_an_xref_that_is_brought_in_to_an_id_that_is_in_no_page(self):
        told = self.told("<p conref='u.dita#u/a'/>", **{"u.dita": topic("<p id='a'><xref href='#./c'/></p><p id='c'/>", "u")})
        self.assertEqual(told, ["docs/u.dita:1:47: `#./c` leads to no element: the page `t.html` has no such element, and the link leads to its top"])

    def test_a_conref_to_an_id_that_is_in_no_document(self):
        told = self.told("<p conref='u.dita#u/b'/><p conref='u.dita#v/a'/><p conref='gone.dita#g/a'/><p conref='u.dita#u/a'/>",
                         **{"u.dita": topic("<p id='a'/>", "u")})
        so = "the content is not brought in (ConrefMissing)"
        self.assertEqual(told, [
            f"docs/t.dita:1:37: `u.dita` has no element `u/b`: {so}",
            f"docs/t.dita:1:61: `u.dita` has no element `v/a`: {so}",
            f"docs/t.dita:1:85: there is no file `gone.dita`: {so}"])

    def test_an_id_that_stands_twice_in_a_page(self):
        told = self.told("<p id='a'/>\n<ul id='b'><li id='a'/></ul>\n<p id='t__a'/><p id='a__b'/><p id='a__b'/>")
        self.assertEqual(told, [
            "docs/t.dita:2:12: the id `a` stands in line 1 already: links lead there",
            "docs/t.dita:3:29: the id `a__b` stands in line 3 already: links lead there"])
        twice = '<dita><topic id="a"><title>A</title></topic>\n<topic id="a"><title>A</title></topic></dita>'
        told = self.publish({"m.ditamap": map_of("t.dita"), "t.dita": twice}).told
        self.assertEqual(told, ["docs/t.dita:2:1: the id `a` stands in line 1 already: links lead there"])

    def test_an_id_that_is_brought_in_twice(self):
        told = self.told("<ul conref='u.dita#u/l'/><ul conref='u.dita#u/l'/>", **{"u.dita": topic("<ul id='l'><li id='i'/></ul>", "u")})
        self.assertEqual(told, ["docs/u.dita:1:48: the id `i` stands more than once in the page `t.html`, since content is brought in: "
                                "links lead to the first"])

    def test_a_document_that_the_desk_refuses(self):
        files = {"m.ditamap": map_of("deep.dita", "large.dita", "t.dita"), "deep.dita": nested(254), "t.dita": nested(253),
                 "large.dita": topic("<p>" + "x" * (5 << 20) + "</p>")}
        self.assertEqual(self.publish(files).told, [
            "docs/deep.dita:1:1052: more than 256 elements stand within one another: the document is left out (TooDeep)",
            "docs/large.dita: the document has more than 4 MiB as PYX: it is left out (TooLong)",
            "docs/m.ditamap:1:22: `deep.dita` can't be read (docs/deep.dita:1:1052): it gets no page (TopicMissing)",
            "docs/m.ditamap:1:50: `large.dita` can't be read (docs/large.dita): it gets no page (TopicMissing)"])
        self.assertIn("deep", self.page("t.html"))

    def test_a_reference_without_format_to_a_file_that_is_no_dita(self):
        files = {"m.ditamap": map_of("t.dita", "a.PDF", "x.html"), "a.PDF": b"%PDF", "x.html": "<html><p>x</p></html>", "d.topic": topic("", "d", "D"),
                 "t.dita": topic("<p><xref href='a.PDF'>A</xref><xref href='d.topic'/><xref href='gone.pdf'/></p>")}
        self.assertEqual(self.publish(files).told, [
            'docs/m.ditamap:1:47: `a.PDF` is no DITA file: write format="pdf" here; as it is, it gets no page (TopicMissing)',
            'docs/m.ditamap:1:71: `x.html` is no DITA file: write format="html" here; as it is, it gets no page (TopicMissing)',
            'docs/t.dita:1:40: `a.PDF` is no DITA file: write format="pdf" here; as it is, no link leads there (LinkNoPage)',
            "docs/t.dita:1:67: `d.topic` has no page in this map: no link leads there (LinkNoPage)",
            "docs/t.dita:1:89: there is no topic `gone.pdf` (a file that is no DITA needs a `format`): no link leads there (LinkNoPage)"])

    def test_content_that_pages_pass_over_is_told_once_for_each_kind(self):
        term = "<indexterm>a<indexterm>b</indexterm></indexterm>"
        files = {"m.ditamap": map_of("t.dita", "u.dita"), "u.dita": topic(f"<p>{term}</p><object data='x'/>", "u"), "n.dita": topic(term),
                 "t.dita": topic(f"<p>{term}</p>\n<p><svg-container><svg/></svg-container></p><fig><object/></fig><p>{term}</p>")}
        self.assertEqual(self.publish(files).told, [
            "docs/t.dita:1:40: warning: pages show nothing of <indexterm>: 3 elements of the sources",
            "docs/t.dita:2:4: the content of <svg-container> can't be published: it is left out (Foreign)",
            "docs/t.dita:2:50: the content of <object> can't be published: it is left out (here, and 1 time more) (Foreign)"])

    def test_index_terms_of_a_map_are_told_and_those_of_a_topic_without_a_page_are_not(self):
        term = "<indexterm>a</indexterm>"
        files = {"m.ditamap": f"<map><topicref href='t.dita'><topicmeta><keywords>{term}</keywords></topicmeta></topicref>"
                              "<topicref href='m.dita' processing-role='resource-only'/></map>",
                 "t.dita": topic(""), "m.dita": topic(f"<p>{term}</p>", "m")}
        self.assertEqual(self.publish(files).told, ["docs/m.ditamap:1:51: warning: pages show nothing of <indexterm>: 1 element of the sources"])

    def test_the_key_of_a_picture_needs_no_text(self):
        keys = "<map><keydef keys='k' href='a.png' format='png'/><topicref href='t.dita'/><topicref href='u.dita'/></map>"
        files = {"m.ditamap": keys, "t.dita": topic("<image keyref='k'/>"), "u.dita": topic("", "u"), "a.png": b"x"}
        self.assertEqual(self.publish(files).told, [])
        files["u.dita"] = topic("<p><ph keyref='k'/></p>", "u")
        self.assertEqual(self.publish(files).told, ["docs/m.ditamap:1:6: the key `k` has no text: its name stands there (KeyNoText)"])

    def test_keys(self):
        told = self.told("<p><keyword keyref='none'/></p>")
        self.assertEqual(told, ["docs/t.dita:1:40: no key `none` is defined here (KeyUndefined)"])

    def test_a_file_in_whose_place_a_page_stands(self):
        told = self.told("<p><xref href='t.html' format='html'>T</xref></p>", **{"t.html": "<html/>"})
        self.assertEqual(told, ["docs/t.dita:1:40: the file `t.html` is not copied: a page has its name"])

    def test_a_fault_of_a_broken_file_with_an_entity(self):
        told = self.told("<p>&nbsp;</p>")
        self.assertEqual(told[1], "docs/t.dita:1:40: not well-formed XML: undefined entity; the innermost open element is <p> of line 1: "
                                  "the document is left out")
