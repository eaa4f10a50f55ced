"""Runs the desk over a script, and says in a writer's words how it ended."""
from __future__ import annotations

import errno
import pathlib
import subprocess

from publishing import program, rows, transcript
from publishing.message import Stop

ENDS = {
    2: "the desk is of another version than this tool, and does not know what it is asked for",
    3: "the script could not be read by the desk",
    4: "the transcript could not be written by the desk",
    5: "memory ran out",
    6: "the desk reads no script there",
    7: "a page could not be written",
}
HINTS = {
    errno.ENOEXEC: "; the release is for x86-64 Linux, and `tools/build` builds a program",
    errno.EACCES: "; `chmod +x` gives it the right",
}


def why(status: int, output: str, errors: str, folder: pathlib.Path | None = None) -> str:
    """What is told of a run that did not end as it should."""
    if status < 0:
        return f"the desk was stopped by signal {-status}"
    lines = (errors.replace(f"{folder}/", "") if folder is not None else errors).strip().split("\n")
    detail = output.strip() if status == 6 else lines[0] if status == 2 else lines[-1]
    return f"{ENDS.get(status, f'the desk ended with status {status}')}: {detail}"


def mode_of(words: list[str], workers: int, is_indexed: bool) -> list[str]:
    """The mode of the desk that these words start, and its options. A batch has no index, and a program may be older than batches."""
    if is_indexed:
        return ["terms"]
    return ["batch", "--workers", str(workers)] if "batch" in program.modes(words) else ["clean"]


def call_of(words: list[str], mode: list[str], folder: pathlib.Path) -> list[str]:
    """The words of a whole run. The modes `clean` and `terms` put pages into the folder, a batch none."""
    return [*words, mode[0], "--out", str(folder), *mode[1:]]


def run(words: list[str], mode: list[str], script: bytes, folder: pathlib.Path) -> bytes:
    """The transcript of a script."""
    try:
        child = subprocess.Popen(call_of(words, mode, folder), stdin=subprocess.PIPE, stdout=subprocess.PIPE, stderr=subprocess.PIPE)
    except OSError as error:
        raise Stop(f"{words[0]}: the program does not start: {error.strerror}{HINTS.get(error.errno, '')}") from None
    try:
        output, errors = child.communicate(script)
    except BaseException:
        child.kill()
        child.wait()
        raise
    if child.returncode != 0:
        raise Stop(why(child.returncode, output.decode("utf-8", "replace"), errors.decode("utf-8", "replace"), folder))
    return output


def entries(mode: list[str], answer: bytes, folder: pathlib.Path) -> list[transcript.Entry]:
    """The entries of a transcript. The pages of the build with number N are then in `folder`/bN; those of a batch come from its rows."""
    if mode[0] != "batch":
        return transcript.entries_of(answer.decode("utf-8", "replace"))
    try:
        whole = rows.read(answer)
        rows.write_builds(whole, folder)
    except rows.Unread as fault:
        raise Stop(f"the desk's answer can't be read: {fault}") from None
    return whole.entries
