"""Flags: what a DITAVAL flags has a class in its page, and the sheet shows it."""
import re

import style
from cases import Case, map_of, topic

RULES = "<val><prop att='audience' val='x' action='flag'/><prop att='platform' action='flag'/><prop att='audience' val='z' action='exclude'/></val>"
ONE = {"m.ditamap": map_of("t.dita"), "v.ditaval": RULES}


class Classes(Case):
    def body(self, content: str, is_filtered: bool = True, **more: str) -> str:
        """The body of the page of a topic with this content."""
        words = ["--filter", "v.ditaval"] if is_filtered else []
        result = self.publish({**ONE, **more, "t.dita": topic(content)}, *words)
        self.assertEqual(result.told, [])
        return re.search('<div class="body">(.*)</div></article>', self.page("t.html"), re.DOTALL)[1]

    def test_an_element_has_a_class_for_each_flag(self):
        self.assertEqual(self.body("<p audience='x y'>1</p><note audience='x'>2</note>"),
                         '<p class="flag-audience-x">1</p>\n<div class="note flag-audience-x">2</div>')
        self.assertEqual(self.body("<p id='i' audience='x' platform='a b'>1<b platform='a'>2</b></p>"),
                         '<p id="t__i" class="flag-audience-x flag-platform-a flag-platform-b">1<b class="flag-platform-a">2</b></p>')

    def test_what_is_excluded_goes_and_what_is_not_flagged_has_no_class(self):
        self.assertEqual(self.body("<p audience='z'>1</p><p audience='y'>2</p><p audience='x z'>3</p>"),
                         '\n<p>2</p>\n<p class="flag-audience-x">3</p>')

    def test_no_text_is_lost_and_without_the_ditaval_there_is_no_class(self):
        content = "<p audience='x'>1<b platform='a'>2</b></p><note audience='x'>3</note>"
        flagged = self.body(content)
        self.assertEqual(flagged.count("flag-"), 3)
        self.assertEqual(self.body(content, is_filtered=False), '<p>1<b>2</b></p>\n<div class="note">3</div>')
        self.assertEqual(re.sub(' class="flag-[^"]*"| flag-[^" ]*', "", flagged), '<p>1<b>2</b></p>\n<div class="note">3</div>')

    def test_an_attribute_that_the_document_declares_is_flagged(self):
        topic_of = "<topic id='t' domains='a(props vendor)'><title>T</title><body><p vendor='x'>1</p></body></topic>"
        self.put({**ONE, "v.ditaval": RULES.replace("'audience' val='x'", "'vendor' val='x'"), "t.dita": topic_of})
        self.assertEqual(self.call("docs", "m.ditamap", "out", "v.ditaval").told, [])
        self.assertIn('<p class="flag-vendor-x">1</p>', self.page("t.html"))

    def test_a_branch_is_flagged_by_its_own_ditaval(self):
        branch = "<map><topicref href='t.dita'><ditavalref href='v.ditaval'/></topicref></map>"
        self.assertEqual(self.body("<p audience='x'>1</p>", False, **{"m.ditamap": branch}), '<p class="flag-audience-x">1</p>')

    def test_what_is_brought_in_is_flagged(self):
        self.assertEqual(self.body("<p conref='s.dita#s/p'/>", **{"s.dita": topic("<p id='p' audience='x'>1</p>", "s")}),
                         '<p class="flag-audience-x">1</p>')

    def test_the_page_links_the_sheet_in_which_flags_are_shown(self):
        self.put({**ONE, "t.dita": topic("<p audience='x'>1</p>")})
        self.assertEqual(self.call("docs", "m.ditamap", "out", "v.ditaval").told, [])
        self.assertIn('<p class="flag-audience-x">1</p>', self.page("t.html"))
        self.assertIn(f'href="{style.SHEET}"', self.page("t.html"))
        self.assertIn('\n[class*="flag-"] {\n', self.page(style.SHEET))
