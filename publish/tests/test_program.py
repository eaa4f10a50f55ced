"""Which program the desk is."""
import hashlib
import os
import pathlib
import unittest
from unittest import mock

from cases import Case
from publishing import program
from publishing.message import Stop

CRATES = "# crates\nlow: clap\ndita_desk: low\nlaws: dita_desk\n"


class Program(Case):
    def setUp(self) -> None:
        super().setUp()
        self.put({"crates.txt": CRATES, "crates/low/src/lib.rt": "", "crates/low/specs/A.antt": "", "crates/laws/src/lib.rt": "",
                  "crates/dita_desk/src/main.rt": ""}, self.root)
        for path in self.root.rglob("*.*t"):
            os.utime(path, (1000, 1000))
        patch = mock.patch.dict(os.environ)
        patch.start()
        self.addCleanup(patch.stop)
        os.environ.pop("DITA_DESK", None)

    def release(self, data: bytes = b"program") -> str:
        self.put({"release/dita_desk": data, "release/dita_desk.sha256": hashlib.sha256(b"program").hexdigest() + "  dita_desk\n"}, self.root)
        return str(self.root / "release/dita_desk")

    def built(self, made: int) -> str:
        path = self.root / "crates/dita_desk/out/dita_desk"
        self.put({"crates/dita_desk/out/dita_desk": b"built", "crates/dita_desk/out/later.rt": b""}, self.root)
        os.chmod(path, 0o755)
        os.utime(path, (made, made))
        return str(path)

    def test_the_release_where_nothing_is_built(self):
        release = self.release()
        self.assertEqual(program.find(self.root), [release])

    def test_a_program_built_from_newer_sources_wins(self):
        release, built = self.release(), self.built(2000)
        self.assertEqual(program.find(self.root), [built])
        os.utime(self.root / "crates/laws/src/lib.rt", (3000, 3000))
        self.assertEqual(program.find(self.root), [built])
        os.utime(self.root / "crates/low/specs/A.antt", (3000, 3000))
        self.assertEqual(program.find(self.root), [release])

    def test_a_release_that_is_not_the_one_of_its_checksum(self):
        self.release(b"other")
        with self.assertRaisesRegex(Stop, "this is not the program of dita_desk.sha256: fetch the release anew"):
            program.find(self.root)

    def test_no_program(self):
        with self.assertRaisesRegex(Stop, "there is no program here: release/ has none, and none is built from these sources; `tools/build`"):
            program.find(self.root)

    def test_the_program_of_a_developer(self):
        os.environ["DITA_DESK"] = "some 'program of mine'"
        self.assertEqual(program.find(self.root), ["some", "program of mine"])


class Crates(unittest.TestCase):
    def test_the_crates_of_the_program_are_in_an_order_in_which_they_can_be_built(self):
        crates = program.crates_of((program.TOP / "crates.txt").read_text(encoding="utf-8"))
        order = program.below(crates, "dita_desk")
        self.assertEqual(order[-1], "dita_desk")
        for place, name in enumerate(order):
            self.assertLessEqual(set(crates[name]) & set(crates), set(order[:place]), name)
            self.assertTrue((pathlib.Path(program.TOP) / "crates" / name).is_dir())
