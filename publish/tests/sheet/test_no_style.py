"""Without a style each page is byte for byte what the desk wrote, and with one it differs by two lines."""
import shutil

from cases import TOP, Case
from sheet.test_sheet import HEAD, LINE
import style

MANUAL = TOP / "examples" / "manual" / "source"


class Pages(Case):
    def setUp(self):
        super().setUp()
        shutil.copytree(MANUAL, self.docs, dirs_exist_ok=True)
        ended = self.call("docs", "manual.ditamap", "plain", "--no-style", "--keep", "kept")
        self.assertEqual(ended.status, 0, ended)
        self.desk = self.desk_pages("clean")

    def test_without_a_style_pages_are_those_of_the_desk(self):
        self.assertGreater(len(self.desk), 20)
        self.assertEqual(self.pages("plain"), self.desk)
        self.assertFalse((self.root / "plain" / style.SHEET).exists())

    def test_with_a_style_they_differ_by_two_lines(self):
        self.assertEqual(self.call("docs", "manual.ditamap", "out").status, 0)
        dressed = self.pages()
        self.assertEqual({path: LINE.sub(b"", HEAD.sub(b"", page)) for path, page in dressed.items()}, self.desk)
        self.assertEqual((self.out / style.SHEET).read_bytes(), style.sheet_bytes())
        for path, page in dressed.items():
            self.assertEqual(len(HEAD.findall(page)), 1, path)
            words = [words for _, words in LINE.findall(page)]
            self.assertEqual(words, [] if path == "index.html" else [style.title_of(self.desk["index.html"])], path)
