"""The folder beside this file, by which the sheet is looked at, has each type of the table of elements and each type of note."""
import pathlib
import re
import unittest
import xml.etree.ElementTree as tree

TOP = pathlib.Path(__file__).resolve().parents[3]
FOLDER = pathlib.Path(__file__).resolve().parent
NOTE_TYPES = set("note attention caution danger fastpath important notice remember restriction tip trouble warning other".split())


def classes():
    """The types of each element, the base type first."""
    lines = (TOP / "publish" / "publishing" / "classes").read_text(encoding="utf-8").splitlines()
    rows = [line.split(" ; ")[0].split() for line in lines if line and not line.startswith("#")]
    return {row[0]: row[2:] for row in rows}


def forms():
    """The types of the table, as the program has them."""
    return re.findall(r'^    \("([a-z-]+/[a-z-]+)", Form::', (TOP / "crates/html_forms/src/forms.rt").read_text(encoding="utf-8"), re.M)


def elements():
    for path in sorted(FOLDER.rglob("*.dita")):
        yield from tree.parse(path).iter()


class Elements(unittest.TestCase):
    def test_each_type_of_the_table_is_there(self):
        table, known, met = forms(), classes(), set()
        for element in elements():
            rows = [name for name in known[element.tag] if name in table]
            met.update(rows[-1:])
        self.assertEqual(len(table), 62)
        self.assertEqual([name for name in table if name not in met], [])

    def test_each_type_of_note_is_there(self):
        met = {element.get("type") for element in elements() if element.tag in ("note", "hazardstatement")}
        self.assertEqual(NOTE_TYPES - met, set())
        self.assertIn(None, met)


if __name__ == "__main__":
    unittest.main()
