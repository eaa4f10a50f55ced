"""Words don't run together: a line end between the elements of element-only content."""
import re

from cases import Case, map_of
from publishing import kinds


def words(page: str) -> str:
    """The text of a page with its blanks folded."""
    body = page.partition("<body>")[2]
    return " ".join(re.sub("<[^>]*>", "", body).split())


class Words(Case):
    def text(self, topic: str) -> str:
        self.publish({"m.ditamap": map_of("t.dita"), "t.dita": topic})
        return words(self.page("t.html"))

    def test_steps(self):
        steps = "<step><cmd>Cut the tape.</cmd><info>With scissors.</info></step><step><cmd>Open</cmd><stepresult>It opens.</stepresult></step>"
        text = self.text(f"<task id='t'><title>T</title><taskbody><steps>{steps}</steps></taskbody></task>")
        self.assertEqual(text, "T Cut the tape. With scissors. Open It opens.")

    def test_book_titles(self):
        title = "<booktitle><booklibrary>Kitchen Library</booklibrary><mainbooktitle>Barista One</mainbooktitle></booktitle>"
        self.publish({"m.ditamap": f"<bookmap>{title}</bookmap>"})
        self.assertIn("<title>Kitchen Library Barista One</title>", self.page("index.html"))

    def test_choice_tables_definition_lists_and_menus(self):
        rows = "".join(f"<chrow><choption>{one}</choption><chdesc>{other}</chdesc></chrow>" for one, other in (("Left", "Short"), ("Right", "Long")))
        choices = f"<choicetable>{rows}</choicetable>"
        text = self.text(f"<task id='t'><title>T</title><taskbody><steps><step><cmd>Go</cmd>{choices}</step></steps></taskbody></task>")
        self.assertEqual(text, "T Go Left Short Right Long")
        lists = "<dl><dlentry><dt>Tea</dt><dd>hot</dd></dlentry><dlentry><dt>Ice</dt><dd>cold</dd></dlentry></dl>"
        menu = "<p><menucascade><uicontrol>File</uicontrol><uicontrol>Save</uicontrol></menucascade></p>"
        self.assertEqual(self.text(f"<topic id='t'><title>T</title><body>{lists}{menu}</body></topic>"), "T Tea hot Ice cold File Save")

    def test_mixed_content_stays_as_it_is(self):
        text = self.text("<topic id='t'><title>T</title><body><p>H<sub>2</sub><b>O</b><i>!</i></p><ul><li><b>a</b><i>b</i></li></ul></body></topic>")
        self.assertEqual(text, "T H2O! ab")

    def test_a_source_over_lines_is_given_as_it_is(self):
        steps = "<steps>\n <step><cmd>A.</cmd>\n  <info>B.</info></step>\n</steps>"
        self.publish({"m.ditamap": map_of("t.dita"), "t.dita": f"<task id='t'><title>T</title><taskbody>{steps}</taskbody></task>"})
        self.assertIn("<ol>\n <li><span>A.</span>\n  B.</li>\n</ol>", self.page("t.html"))

    def test_each_type_of_the_list_is_one_of_the_table(self):
        known = {word for pairs in kinds.class_table().values() for word in dict(pairs)["class"].split()}
        self.assertEqual(sorted(kinds.element_only() - known), [])

    def test_types_with_text_are_not_in_the_list(self):
        for name in ("p", "li", "dd", "entry", "stentry", "section", "note", "cmd", "info", "ph", "xref", "title", "choice", "desc"):
            self.assertFalse(kinds.kind_of(name, None, False).is_element_only, name)
        for name in ("steps", "step", "dl", "properties", "property", "booktitle", "parml", "choicetable", "hazardstatement", "taskbody"):
            self.assertTrue(kinds.kind_of(name, None, False).is_element_only, name)
