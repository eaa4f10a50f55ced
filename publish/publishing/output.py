"""The folder OUT: what is published is written beside it, and takes its place only when all of it is there.

A marker in OUT has the list of the files that this tool made. Only a folder that is empty or has the marker is replaced; files of OUT
that are not in the list stay, unless the call asks to remove them."""
from __future__ import annotations

import contextlib
import ctypes
import os
import pathlib
import shutil
import types
from collections.abc import Iterable, Iterator

from publishing import names
from publishing.interrupts import uninterrupted
from publishing.message import Stop

MARKER = ".publish-made-this"
HEAD = "Files of this folder that `publish` made. It replaces them when it publishes here again, and leaves all others.\n"
HERE, EXCHANGE = -100, 2  # AT_FDCWD and RENAME_EXCHANGE of Linux


def made_before(out: pathlib.Path) -> set[str]:
    """The files that the marker of a folder lists."""
    lines = (out / MARKER).read_text(encoding="utf-8").split("\n")
    return {names.decoded(line) for line in lines[1:] if line}


def listing(paths: Iterable[str]) -> str:
    """The text of the marker of a folder in which the tool made these files."""
    return HEAD + "".join(f"{name}\n" for name in sorted(names.encoded(path) for path in paths))


def files_of(folder: pathlib.Path) -> Iterator[str]:
    """The files and links below a folder, by their paths, and its empty folders, whose paths end in `/`."""
    for place, folders, files in os.walk(folder):
        below = os.path.relpath(place, folder)
        linked = [name for name in folders if os.path.islink(os.path.join(place, name))]
        yield from (os.path.normpath(os.path.join(below, name)) for name in [*files, *linked])
        if not folders and not files and below != ".":
            yield below + "/"


class Output:
    """OUT while it is made anew: `desk` is the folder for the desk, and what lies in `pages` takes the place of OUT. `is_put` says whether
    it stands there."""

    def __init__(self, out: pathlib.Path, folder: pathlib.Path | None, is_clean: bool) -> None:
        self.named, self.out, self.is_clean = out, pathlib.Path(os.path.realpath(out)), is_clean
        self.work = self.out.parent / f".{self.out.name}.publish-{os.getpid()}"
        self.desk, self.pages, self.old = self.work / "desk", self.work / "pages", self.work / "old"
        self.made_parents: list[pathlib.Path] = []
        self.is_put = False
        if folder is not None:
            self.check_apart(pathlib.Path(os.path.realpath(folder)))
        self.check()

    def check_apart(self, folder: pathlib.Path) -> None:
        """Stops if the folder of the documents lies in OUT."""
        if self.out == folder or self.out in folder.parents:
            raise Stop(f"{self.named}: the documents lie in this folder: name another one for the pages")

    def check(self) -> None:
        """Stops if this OUT is not to be replaced."""
        try:
            if not self.out.is_dir():
                if os.path.lexists(self.out):
                    raise Stop(f"{self.named}: is a file: name a folder for the pages")
            elif not (self.out / MARKER).is_file() and any(self.out.iterdir()):
                raise Stop(f"{self.named}: is not empty, and was not made by this tool: name a new folder, or empty this one first")
        except OSError as error:
            raise Stop(f"{self.named}: {error.strerror}") from None

    def __enter__(self) -> Output:
        try:
            with uninterrupted():
                self.make_parents()
                for folder in (self.work, self.desk, self.pages):
                    folder.mkdir()
        except OSError as error:
            self.remove()
            raise Stop(f"{self.named}: no folder can be made beside it: {error.strerror}") from None
        return self

    def make_parents(self) -> None:
        for parent in reversed([it for it in self.out.parents if not it.exists()]):
            parent.mkdir()
            self.made_parents.append(parent)

    def __exit__(self, kind: type[BaseException] | None, _fault: BaseException | None, _trace: types.TracebackType | None) -> None:
        self.remove()

    def remove(self) -> None:
        """Removes what does not take the place of OUT, and the folders made for nothing. A second call finds nothing to do."""
        with uninterrupted():
            shutil.rmtree(self.work, ignore_errors=True)
            for parent in reversed(self.made_parents):
                with contextlib.suppress(OSError):
                    parent.rmdir()

    def write(self, path: str, data: bytes) -> None:
        """Makes a file."""
        target = self.pages / path
        try:
            target.parent.mkdir(parents=True, exist_ok=True)
            target.write_bytes(data)
        except OSError as error:
            raise Stop(f"{names.shown(target.name)}: can't be written beside {self.named}: {error.strerror}") from None

    def put(self) -> None:
        """Moves what was made into the place of OUT."""
        try:
            (self.pages / MARKER).write_text(listing(files_of(self.pages)), encoding="utf-8")
            if self.out.is_dir() and (self.out / MARKER).is_file():
                if not self.is_clean:
                    self.keep_others()
                shutil.copystat(self.out, self.pages)
            self.swap()
        except OSError as error:
            raise Stop(f"{self.named}: can't be replaced: {error.strerror}") from None

    def keep_others(self) -> None:
        """Brings in the files of OUT that this tool did not make."""
        listed = made_before(self.out) | {MARKER}
        for path in files_of(self.out):
            if path in listed:
                continue
            target = self.pages / path
            try:
                target.parent.mkdir(parents=True, exist_ok=True)
                if path.endswith("/"):
                    target.mkdir(exist_ok=True)
                else:
                    link(self.out / path, target)
            except (FileExistsError, NotADirectoryError):
                raise Stop(f"{self.named / path}: was not made by this tool, and a page or a file is to stand in its place: move it "
                           "away, or give --clean") from None

    def swap(self) -> None:
        """Puts the new folder in the place of the old one; if that fails, the old one stands there again."""
        with uninterrupted():
            is_there = self.out.is_dir()
            if not (is_there and exchange(self.pages, self.out)):
                self.rename(is_there)
            self.made_parents.clear()
            self.is_put = True

    def rename(self, is_there: bool) -> None:
        """The same where the system exchanges no folders. Between the two calls OUT is not there."""
        if is_there:
            os.rename(self.out, self.old)
        try:
            os.rename(self.pages, self.out)
        except OSError:
            if is_there:
                os.rename(self.old, self.out)
            raise

    def can_patch(self, fresh: Iterable[str]) -> bool:
        """Whether OUT was made by this tool, and has room for files that it did not have: nothing stands at their places, nor a file or
        a link where they need a folder."""
        if not (self.out / MARKER).is_file():
            return False
        return not any(self.is_taken(path) for path in fresh)

    def is_taken(self, path: str) -> bool:
        target = self.out / path
        around = [it for it in target.parents if self.out in it.parents]
        return os.path.lexists(target) or any(os.path.lexists(it) and (it.is_symlink() or not it.is_dir()) for it in around)

    def patch(self, gone: Iterable[str]) -> None:
        """Moves what was made to its places in OUT, file by file, and removes files that the tool made before. At each moment each file is
        whole, and the marker lists it."""
        made = list(files_of(self.pages))
        try:
            with uninterrupted():
                listed = made_before(self.out)
                self.mark(listed.union(made))
                for path in gone:
                    self.drop(path)
                for path in made:
                    (self.out / path).parent.mkdir(parents=True, exist_ok=True)
                    os.replace(self.pages / path, self.out / path)
                self.mark(listed.difference(gone).union(made))
                self.is_put = True
        except OSError as error:
            raise Stop(f"{self.named}: a page can't be replaced: {error.strerror}") from None

    def mark(self, paths: Iterable[str]) -> None:
        """Has the marker of OUT list these files."""
        text = listing(paths)
        if (self.out / MARKER).read_text(encoding="utf-8") != text:
            (self.work / MARKER).write_text(text, encoding="utf-8")
            os.replace(self.work / MARKER, self.out / MARKER)

    def drop(self, path: str) -> None:
        """Removes a file of OUT, and the folders around it that are empty then."""
        (self.out / path).unlink(missing_ok=True)
        for around in (self.out / path).parents:
            if around == self.out:
                return
            try:
                around.rmdir()
            except OSError:
                return


def exchange(one: pathlib.Path, other: pathlib.Path) -> bool:
    """Has two folders change places in one step, if the system can do that."""
    call = getattr(ctypes.CDLL(None), "renameat2", None)
    return call is not None and call(HERE, os.fsencode(one), HERE, os.fsencode(other), EXCHANGE) == 0


def link(source: pathlib.Path, target: pathlib.Path) -> None:
    """The same file at a second place, by a copy where the disk has no links. A target that is there is left."""
    try:
        os.link(source, target, follow_symlinks=False)
    except FileExistsError:
        raise
    except OSError:
        if os.path.lexists(target):
            raise FileExistsError(str(target)) from None
        shutil.copy2(source, target, follow_symlinks=False)
