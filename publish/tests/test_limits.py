"""The limits: which, how much there is, and where most of it lies."""
import pathlib
import unittest

from cases import Case, map_of, topic
from publishing import limits
from publishing.closure import Sources
from publishing.document import Document, Reference
from publishing.message import Stop


def sources_of(sizes: dict[str, int]) -> Sources:
    """Documents that have so many bytes of lines each."""
    sources = Sources(pathlib.Path("docs"))
    sources.documents = {name: Document(name, name, ["x" * (size - 1)]) for name, size in sizes.items()}
    return sources


class Limits(unittest.TestCase):
    def stop(self, sizes: dict[str, int]) -> str:
        sources = sources_of(sizes)
        with self.assertRaises(Stop) as stopped:
            limits.check(sources, sum(sizes.values()))
        return str(stopped.exception)

    def test_bytes(self):
        self.assertEqual(
            self.stop({"a.dita": 1 << 20, "b/c.dita": 60 << 20, "b/d.dita": 4 << 20}),
            "docs: the documents that the map reaches have 65.0 MiB as lines for the desk, and at most 64 MiB can be published together; "
            "most of it, 60.0 MiB, lies in b/c.dita: publish parts of the map one by one")
        self.assertIn("most of it, 50.0 MiB, lies in b/: ", self.stop({"a.dita": 20 << 20, "b/c.dita": 25 << 20, "b/d.dita": 25 << 20}))
        limits.check(sources_of({"a.dita": 64 << 20}), 64 << 20)

    def test_documents(self):
        sizes = {f"big/{number}.dita": 1 for number in range(7000)} | {f"{number}.dita": 1 for number in range(3001)}
        self.assertEqual(self.stop(sizes), "docs: the map reaches 10,001 documents, and at most 10,000 can be published together; most of "
                                           "them, 7,000, lie in big/: publish parts of the map one by one")

    def test_bytes_of_pages(self):
        told = limits.beyond(sources_of({"a.dita": 3 << 20, "b.dita": 1 << 20}), "m.ditamap", ["toolarge", str(300 << 20)])
        self.assertEqual(told, "the pages have 300.0 MiB together, and at most 256 MiB can be published together; of the documents most, "
                               "3.0 MiB as lines, lies in a.dita: cut the map into several maps")


class Maps(Case):
    def test_maps_in_a_row_are_counted(self):
        """Three thousand maps, each in the one before, are more than Python would follow by calls."""
        sources = sources_of({})
        for number in range(3000):
            reference = Reference((1, 1), "href", "", "", f"{number + 1}", "", "", "node", (0, 0))
            sources.documents[f"{number}"] = Document(f"{number}", "", is_map=True, nodes=2, references=[reference])
        self.assertEqual(limits.nodes_of(sources, "0").total(), 6000)

    def test_nodes(self):
        """A map of 256 nodes and its own root, 257 times in a map that has 258 more."""
        small = "<map>" + "<topichead/>" * 256 + "</map>"
        large = "<map>" + "<mapref href='n.ditamap'/>" * 257 + "</map>"
        result = self.publish({"m.ditamap": large, "n.ditamap": small}, status=2)
        self.assertIn("docs/m.ditamap: the map has 66,307 nodes or more with the maps that it includes, and at most 65,536 can be published "
                      "together; most of them, 66,049, come of n.ditamap: cut it into several maps", result.errors)

    def test_pages(self):
        """Sixty-four topics in a scope of their own, sixty-five times."""
        files = {f"t{number}.dita": topic("") for number in range(64)}
        large = "<map>" + "".join(f"<mapref keyscope='s{place}' href='n.ditamap'/>" for place in range(65)) + "</map>"
        result = self.publish({"m.ditamap": large, "n.ditamap": map_of(*files), **files}, status=2)
        self.assertIn("docs/m.ditamap: the map has 4,160 pages or more with the maps that it includes, and at most 4,096 can be published "
                      "together; most of them, 4,160, come of n.ditamap: cut it into several maps", result.errors)
