"""What the tests share: a folder of small documents, and a call of the tool over it.

The program is the one that the tool finds; DITA_DESK names another one."""
from __future__ import annotations

import dataclasses
import pathlib
import shutil
import subprocess
import sys
import tempfile
import unittest

from publishing import program

TOOL = pathlib.Path(__file__).resolve().parent.parent
TOP = TOOL.parent
PUBLISH = TOOL / "publish"


@dataclasses.dataclass(frozen=True)
class Result:
    """How a call ended. `told` are the lines of standard output but the last, if that is the one that counts the pages."""

    status: int
    output: str
    errors: str

    @property
    def told(self) -> list[str]:
        return [line for line in self.output.splitlines() if " in /" not in line]


def topic(body: str, name: str = "t", title: str = "T") -> str:
    return f'<topic id="{name}"><title>{title}</title><body>{body}</body></topic>'


def map_of(*hrefs: str) -> str:
    return "<map><title>M</title>" + "".join(f'<topicref href="{href}"/>' for href in hrefs) + "</map>"


class Case(unittest.TestCase):
    """A test with a new folder `root`, in which `docs` has the documents."""

    def setUp(self) -> None:
        self.root = pathlib.Path(tempfile.mkdtemp())
        self.addCleanup(shutil.rmtree, self.root, ignore_errors=True)
        self.docs, self.out = self.root / "docs", self.root / "out"
        self.docs.mkdir()

    def put(self, files: dict[str, str | bytes], folder: pathlib.Path | None = None) -> None:
        """Writes files below `docs`, or another folder."""
        for name, data in files.items():
            path = (folder or self.docs) / name
            path.parent.mkdir(parents=True, exist_ok=True)
            path.write_bytes(data.encode("utf-8") if isinstance(data, str) else data)

    def call(self, *words: str, **how: object) -> Result:
        """Calls the tool in `root`."""
        given = {"cwd": self.root, "stdin": subprocess.DEVNULL, "capture_output": True, "timeout": 120, **how}
        ended = subprocess.run([sys.executable, str(PUBLISH), *words], **given)
        return Result(ended.returncode, (ended.stdout or b"").decode("utf-8"), (ended.stderr or b"").decode("utf-8"))

    def publish(self, files: dict[str, str | bytes], *words: str, status: int = 0) -> Result:
        """Publishes these files by the map `m.ditamap` into `out`, without a style, and wants this status."""
        self.put(files)
        result = self.call("docs", "m.ditamap", "out", "--no-style", *words)
        self.assertEqual(result.status, status, result)
        self.assertNotIn("Traceback", result.errors)
        return result

    def page(self, name: str) -> str:
        return (self.out / name).read_text(encoding="utf-8")

    def pages(self, folder: str = "out") -> dict[str, bytes]:
        """Each page of a folder, by its path."""
        found = [path for path in (self.root / folder).rglob("*") if path.suffix in (".html", ".htm")]
        return {path.relative_to(self.root / folder).as_posix(): path.read_bytes() for path in found}

    def desk_pages(self, mode: str, kept: str = "kept") -> dict[str, bytes]:
        """Each page that the desk itself makes in this mode of the one build of a script, which a call left in a folder."""
        own = self.root / f"desk-{mode}"
        with open(self.root / kept / "script", "rb") as script:
            subprocess.run([*program.find(), mode, "--out", str(own)], stdin=script, stdout=subprocess.DEVNULL, check=True)
        [made] = own.iterdir()
        return self.pages(made.relative_to(self.root).as_posix())

    def left(self) -> list[str]:
        """What stands in `root` beside the documents."""
        return sorted(path.name for path in self.root.iterdir() if path != self.docs)
