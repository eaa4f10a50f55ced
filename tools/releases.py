"""What the tools on the release share: the sum of sources, the page `release/about`, and what git says.

`release/` has three files: the program, its checksum in the form of `sha256sum`, and `about`, whose lines are NAME VALUE. The last line of
`about` is its seal, the checksum of the lines above: a release that was changed by hand does not have it."""
from __future__ import annotations

import hashlib
import pathlib
import subprocess
import sys

TOP = pathlib.Path(__file__).resolve().parent.parent
sys.path.insert(0, str(TOP / "publish"))

from publishing import program  # noqa: E402  (the line above makes it importable)

FOLDER = TOP / "release"
PROGRAM, CHECKSUM, ABOUT = program.NAME, f"{program.NAME}.sha256", "about"
BUILT = TOP / "crates" / program.NAME / "out" / program.NAME
NONE_YET = "`release/` is empty"


class Wrong(Exception):
    """Why something about the release is not right."""


def sha256(data: bytes) -> str:
    return hashlib.sha256(data).hexdigest()


def git(*words: str, given: bytes | None = None) -> bytes:
    """What git prints."""
    ended = subprocess.run(["git", *words], cwd=TOP, input=given, capture_output=True)
    if ended.returncode != 0:
        raise Wrong(f"git {words[0]}: {ended.stderr.decode('utf-8', 'replace').strip()}")
    return ended.stdout


def sum_of(crates_text: str, files: dict[str, bytes]) -> str:
    """The sum of sources: of the line of each crate in crates.txt on which the program stands, itself too, and of its files."""
    crates = program.crates_of(crates_text)
    wanted = sorted(program.below(crates, program.NAME))
    lines = [f"{name}: {' '.join(crates[name])}\n" for name in wanted]
    for path in sorted(files):
        if path.split("/")[1] in wanted:
            lines.append(f"{sha256(files[path])}  {path}\n")
    return sha256("".join(lines).encode("utf-8"))


def sum_here() -> str:
    """The sum of the sources as they stand in the folder."""
    text = (TOP / "crates.txt").read_text(encoding="utf-8")
    names = program.below(program.crates_of(text), program.NAME)
    return sum_of(text, {path.relative_to(TOP).as_posix(): path.read_bytes() for path in program.source_files(TOP, names)})


def is_source(path: str) -> bool:
    return path.endswith(program.SOURCES) and "/out/" not in path


def sum_at(commit: str) -> str:
    """The sum of the sources of a commit."""
    entries = [line.split("\t", 1) for line in git("ls-tree", "-r", "-z", commit, "crates").decode("utf-8").split("\0") if line]
    blobs = [(path, entry.split()[2]) for entry, path in entries if is_source(path)]
    out, files = git("cat-file", "--batch", given="".join(f"{blob}\n" for _, blob in blobs).encode()), {}
    at = 0
    for path, _ in blobs:
        end = out.index(b"\n", at)
        size = int(out[at:end].split()[2])
        files[path] = out[end + 1:end + 1 + size]
        at = end + size + 2
    return sum_of(git("show", f"{commit}:crates.txt").decode("utf-8"), files)


def about_text(facts: dict[str, str]) -> str:
    """The page `about` with its seal."""
    lines = "".join(f"{name} {value}\n" for name, value in facts.items())
    return f"{lines}seal {sha256(lines.encode('utf-8'))}\n"


def read_about(folder: pathlib.Path = FOLDER) -> dict[str, str]:
    """What `about` says; Wrong, if its seal is not that of its lines."""
    text = (folder / ABOUT).read_text(encoding="utf-8")
    facts = dict(line.partition(" ")[::2] for line in text.splitlines())
    seal = facts.pop("seal", "")
    if text != about_text(facts) or not seal:
        raise Wrong(f"release/{ABOUT} was not written by tools/release: its seal is not that of its lines")
    return facts


def is_beyond(commit: str) -> bool:
    """Whether this is a clone without its whole history, which does not reach back to a commit."""
    if git("rev-parse", "--is-shallow-repository").strip() != b"true":
        return False
    return subprocess.run(["git", "cat-file", "-e", f"{commit}^{{commit}}"], cwd=TOP, capture_output=True).returncode != 0


def commits_behind(commit: str) -> tuple[int, int]:
    """How many commits stand behind this one, and how many of them changed crates."""
    every = git("rev-list", "--count", f"{commit}..HEAD")
    of_crates = git("rev-list", "--count", f"{commit}..HEAD", "--", "crates", "crates.txt")
    return int(every), int(of_crates)


def stripped(built: pathlib.Path, to: pathlib.Path) -> None:
    """Writes a program without its symbols, and nothing else changed."""
    try:
        ended = subprocess.run(["strip", "-o", str(to), str(built)], capture_output=True)
    except FileNotFoundError:
        raise Wrong("there is no `strip` on the path: it comes with binutils") from None
    if ended.returncode != 0:
        raise Wrong(f"strip: {ended.stderr.decode('utf-8', 'replace').strip()}")
