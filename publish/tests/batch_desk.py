"""A desk that knows `batch` whichever program is found, for the tests: it has that program answer in the mode `clean`, and puts the pages
into the transcript as rows, in the order of a run with one worker. The words of each call go to the file that DESK_LOG names. With
DESK_IS_OLD it does not know `batch`."""
from __future__ import annotations

import os
import pathlib
import subprocess
import sys
import tempfile

sys.path.insert(0, str(pathlib.Path(__file__).resolve().parent.parent))

from publishing import program  # noqa: E402  (the line above makes it importable)

HELP = "Arguments:\n  <MODE>  clean: answers .. [possible values: {}]\n"
OLD, NEW = "clean, terms", "clean, terms, gen, batch, trial"


def lines_below(data: bytes) -> bytes:
    return b"".join(b"|%s\n" % line for line in data.split(b"\n")[:-1])


def with_rows(transcript: str, folder: pathlib.Path, asked: list[str]) -> bytes:
    """The transcript of a batch, made of one of `clean` whose last request builds what `asked` names."""
    made, rows, number = [], [], 0
    for line in transcript.splitlines()[:-1]:
        words = line.split(" ")
        number = int(words[3]) if words[0] == "entry" else number
        if words[0] == "|page":
            data = (folder / f"b{number}" / words[1]).read_bytes()
            serial, is_contents = len(rows) + 2, words[1] == "index.html"
            part, index = ("contents", 0) if is_contents else ("page", len(rows))
            head = f"row {serial} {part} {asked[0]} {asked[1] if asked[1:] else '-'} {index} {data.count(10)}\n"
            rows.append(head.encode() + lines_below(data))
            line = f"|page {words[1]} row {serial}"
        made.append(f"{line}\n".encode())
    count = transcript.count("\nentry ")
    return b"".join([*made, *rows, f"end {count} {len(rows) + 1} 0\n".encode()])


def main(words: list[str]) -> int:
    if log := os.environ.get("DESK_LOG"):
        with open(log, "a", encoding="utf-8") as file:
            print(*words, file=file)
    is_old = "DESK_IS_OLD" in os.environ
    if words == ["--help"]:
        print(HELP.format(OLD if is_old else NEW), end="")
        return 0
    if words[0] == "batch" and is_old:
        return 2
    del os.environ["DITA_DESK"]
    if words[0] != "batch":
        return subprocess.run([*program.find(), *words]).returncode
    given = sys.stdin.buffer.read()
    with tempfile.TemporaryDirectory() as room:
        ended = subprocess.run([*program.find(), "clean", "--out", room], input=given, stdout=subprocess.PIPE)
        if ended.returncode == 0:
            asked = given.decode("utf-8").rstrip("\n").rpartition("\n")[2].split(" ")[2:]
            sys.stdout.buffer.write(with_rows(ended.stdout.decode("utf-8"), pathlib.Path(room), asked))
        return ended.returncode


if __name__ == "__main__":
    sys.exit(main(sys.argv[1:]))
