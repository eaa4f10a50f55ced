"""A live site: what is saved in the folder is put at a desk over one session, built, and written into OUT, and the browser shows it."""
from __future__ import annotations

import os
import sys
from collections.abc import Callable

import style
from publishing import beside, checks, closure, dressing, faults, limits, names, program, server, transcript
from publishing.kept import KeptSources
from publishing.message import Message, Stop, counted
from publishing.options import Options
from publishing.output import Output
from publishing.pages import Page
from publishing.preview import Preview
from publishing.progress import Progress
from publishing.roots import roots_of
from publishing.session import Built, Ended, Session
from publishing.site import Change, Site
from publishing.terminal import Terminal
from publishing.watch import Watcher

SWITCH_SECONDS = 0.001  # so long a thread that answers a browser waits at most while messages are put together


class Live:
    """A site that is published again and again. `say` takes lines for standard output, and `mark` the name of each step that is done, for
    those who measure. `files` are those that the tool made in OUT, and `standing` is which folder that is; none, if it is not known
    what stands there."""

    def __init__(self, asked: Options, say: Callable[[str], None], mark: Callable[[str], None] = lambda step: None) -> None:
        self.asked, self.mark = asked, mark
        self.terminal = Terminal(asked, say)
        self.progress = Progress(asked.quiet)
        self.watcher = Watcher()
        self.sources = KeptSources(asked.folder, self.watcher)
        self.site = Site()
        self.session: Session | None = None
        self.built: Built | None = None
        self.sheet: bytes | None = None
        self.files: set[str] = set()
        self.standing: tuple[int, int] | None = None
        self.is_due, self.is_put = True, False

    def run(self) -> None:
        """Publishes whenever something is saved, until an interrupt, or until it can't begin."""
        self.words = program.find()
        server.check(self.words)
        self.roots = roots_of(self.asked, self.sources)
        self.output()
        preview = Preview(self.asked.out, self.asked.port)
        sys.setswitchinterval(SWITCH_SECONDS)
        try:
            self.publish({}, preview)
            preview.start()
            messages = self.messages()
            self.progress.clear()
            self.terminal.begin(len(self.site.shown), messages, preview.address)
            while True:
                self.renew(self.watcher.wait(), preview)
        finally:
            self.progress.clear()
            self.end_session()
            preview.server_close()

    def output(self) -> Output:
        """OUT, or Stop if it is not to be replaced."""
        return Output(self.asked.out, self.asked.folder, self.asked.clean)

    def renew(self, saved: dict[str, str], preview: Preview) -> None:
        """Publishes what was saved. What stops that is told, and the next change tries again."""
        self.mark("watched")
        try:
            change = self.publish(saved, preview)
        except Stop as stop:
            self.watch()
            self.progress.clear()
            self.terminal.stopped(saved, stop, self.unread())
        else:
            messages = self.messages()
            self.progress.clear()
            self.terminal.built(saved, change, messages)
        self.mark("checked")

    def publish(self, saved: dict[str, str], preview: Preview) -> Change:
        """Reads, builds and writes what was saved, and tells the browser."""
        self.read(saved)
        change = self.build()
        changed = self.write(saved, change)
        self.mark("written")
        if changed:
            preview.news.tell(changed)
        self.watch()
        return change

    def read(self, saved: dict[str, str]) -> None:
        """Reads what the map reaches; only files that were saved are parsed again."""
        self.sources.renew(saved)
        closure.reach(self.sources, self.roots, lambda count: self.progress.tell(f"reading document {count:,}", is_now=False))
        self.sources.settle()
        closure.check_roots(self.sources, self.roots)
        self.mark("read")

    def build(self) -> Change:
        """Has the desk build from the documents, if it has others or if that is due; a new desk, if that one ends."""
        is_new = self.session is None
        try:
            return self.build_here()
        except Ended as ended:
            self.end_session()
            if is_new:
                raise Stop(str(ended)) from None
            self.progress.clear()
            self.terminal.restarted(ended)
        try:
            return self.build_here()
        except Ended as ended:
            self.end_session()
            raise Stop(str(ended)) from None

    def end_session(self) -> None:
        """Leaves the desk."""
        if self.session is not None:
            self.session.end()
        self.session, self.is_due = None, True
        self.site.forget_rows()

    def build_here(self) -> Change:
        """Has this desk build, or one that is started."""
        if self.session is None:
            self.progress.tell("the desk starts")
            self.session = Session(self.words, self.asked.workers)
        edits = self.session.edits(self.sources.documents)
        if edits:
            limits.check(self.sources, sum(it.size() for it in self.sources.documents.values()))
            self.progress.tell(f"the desk takes {counted(len(edits), 'document')}")
            self.is_due = True
            self.session.put(edits)
        if not self.is_due:
            return Change(0, len(self.site.shown), set(), False)
        self.progress.tell("the desk builds")
        built = self.session.build(self.roots, lambda: self.mark("built"))
        self.mark("received")
        faults.check_built(self.sources, self.roots, built.entry.reply)
        self.built, self.is_due = built, False
        return self.site.take(built)

    def write(self, saved: dict[str, str], change: Change) -> set[str]:
        """Writes what changed into OUT, or all if OUT is not as it was left; gives the files of OUT that are others now."""
        standing, self.standing = self.standing, None
        pages = self.site.by_path()
        copied = self.beside(pages)
        before, self.sheet = self.sheet, dressing.sheet_of(self.asked)
        files = {*pages, *copied, *([style.SHEET] if self.sheet is not None else [])}
        changed = {names.decoded(name) for name in change.names} | {it for it in copied if self.sources.base + it in saved}
        changed |= files ^ self.files | ({style.SHEET} if before != self.sheet else set()) | (set(pages) if change.has_title else set())
        with self.output() as output:
            is_whole = standing is None or standing != self.identity() or not output.can_patch(files - self.files)
            made, gone = files if is_whole else files & changed, self.files - files
            self.stage(output, pages, made)
            try:
                if is_whole:
                    output.put()
                elif made or gone:
                    output.patch(gone)
            finally:
                self.is_put |= output.is_put
        self.files, self.standing = files, self.identity()
        self.progress.clear()
        self.terminal.wrote(made, gone, pages)
        return made | gone

    def beside(self, pages: dict[str, Page]) -> list[str]:
        """The files to which pages lead; those that are not there are watched too, and so is the style sheet."""
        for path in beside.targets(pages):
            self.watcher.add(self.sources.base + path)
        if self.asked.style is not None:
            self.watcher.add(str(self.asked.style))
        return beside.wanted(self.asked.folder, pages)

    def stage(self, output: Output, pages: dict[str, Page], paths: set[str]) -> None:
        """Makes these files beside OUT."""
        dress = dressing.dresser(self.asked, self.site.title)
        for shown in self.site.shown.values():
            if shown.page.path in paths:
                output.write(shown.page.path, dress(shown.data, shown.page.path))
        if self.sheet is not None and style.SHEET in paths:
            output.write(style.SHEET, self.sheet)
        beside.copy(self.asked.folder, sorted(it for it in paths if it not in pages and it != style.SHEET), output.pages)

    def identity(self) -> tuple[int, int] | None:
        """Which folder OUT is."""
        try:
            it = os.stat(self.asked.out)
        except OSError:
            return None
        return it.st_dev, it.st_ino

    def watch(self) -> None:
        """Watches what decides what the next build is, and nothing else."""
        targets = {self.sources.base + path for path in beside.targets(self.site.by_path())}
        own = {str(self.asked.style)} if self.asked.style is not None else set()
        self.watcher.keep(self.sources.files() | targets | own)

    def unread(self) -> list[Message]:
        """A message for each file that can't be read."""
        return [*closure.left_out(self.sources), *self.sources.stale.values()]

    def messages(self) -> list[Message]:
        """All that is wrong with the sources of the last build, each once."""
        told = set(self.unread())
        if self.session is not None and self.built is not None:
            refused = faults.refusals(self.sources, ((name, reply) for name, (_, reply) in self.session.refused.items()))
            told.update(refused.values())
            teller = faults.Teller(self.sources, refused)
            told.update(faults.told_all(teller, map(transcript.fault_of, self.built.entry.faults())))
            told.update(checks.told(self.sources, self.site.by_path(), self.shown, has_index=False))
        return sorted(told)

    def shown(self, path: str) -> str:
        """How messages name a page or a file of OUT."""
        return names.shown(str(self.asked.out / path))
