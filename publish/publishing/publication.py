"""One publication, step by step: the sources are read, the desk builds, its pages are checked and dressed, and OUT is replaced."""
from __future__ import annotations

import os
import pathlib
from collections.abc import Callable

import style
from publishing import beside, checks, closure, desk, dressing, faults, limits, names, pages, program, script, transcript
from publishing.document import Document
from publishing.message import Message, Stop, count_of, counted
from publishing.options import Options
from publishing.output import Output
from publishing.progress import Progress
from publishing.roots import roots_of


class Publication:
    """What a call publishes. `say` takes lines for standard output."""

    def __init__(self, asked: Options, say: Callable[[str], None]) -> None:
        self.asked, self.say = asked, say
        self.progress = Progress(asked.quiet)
        self.sources = closure.Sources(asked.folder)
        self.told: set[Message] = set()
        self.pages: dict[str, pages.Page] = {}
        self.output: Output | None = None

    @property
    def is_put(self) -> bool:
        """Whether the pages stand in OUT."""
        return self.output is not None and self.output.is_put

    def clear(self) -> None:
        """Removes the folder beside OUT, if an interrupt came where the call would have done so itself."""
        if self.output is not None:
            self.output.remove()

    def messages(self) -> list[Message]:
        return sorted(self.told)

    def faults(self) -> list[Message]:
        """The messages that are no warnings."""
        return [message for message in self.messages() if not message.is_warning]

    def run(self) -> None:
        """Publishes, or stops with OUT as it was."""
        words = program.find()
        roots = roots_of(self.asked, self.sources)
        self.output = Output(self.asked.out, self.asked.folder, self.asked.clean)
        with self.output as output:
            self.read(roots)
            documents = script.in_order(self.sources.documents.values())
            given = script.script_of(documents, roots)
            self.keep("script", given)
            limits.check(self.sources, len(given))
            self.progress.tell(f"the desk builds from {counted(len(documents), 'document')}")
            self.judge(documents, roots, self.answers(words, given, output.desk))
            self.take_pages(output, len(documents) + 1)
            self.finish(output)

    def read(self, roots: list[str]) -> None:
        """Reads what the map reaches; what else is not well formed is only a warning."""
        closure.reach(self.sources, roots, lambda count: self.progress.tell(f"reading document {count:,}", is_now=False))
        self.told.update(closure.left_out(self.sources))
        closure.check_roots(self.sources, roots)
        self.told.update(closure.not_reached(
            self.sources, lambda count: self.progress.tell(f"looking at file {count:,}, which is not reached", is_now=False)))
        if self.asked.verbose:
            for name in sorted(self.sources.documents):
                self.say(f"read {self.sources.place(name)}")

    def answers(self, words: list[str], given: bytes, folder: pathlib.Path) -> list[transcript.Entry]:
        """The desk's answers to a script, and its pages below a folder."""
        mode = desk.mode_of(words, self.asked.workers, self.asked.index)
        answer = desk.run(words, mode, given, folder)
        self.keep("transcript", answer)
        return desk.entries(mode, answer, folder)

    def judge(self, documents: list[Document], roots: list[str], entries: list[transcript.Entry]) -> None:
        """Takes the messages of a build from its transcript, or stops if nothing was built."""
        if len(entries) != len(documents) + 1:
            raise Stop("the desk's answer has not as many entries as the script has requests")
        refused = faults.refusals(self.sources, zip((it.name for it in documents), (it.reply for it in entries)))
        self.told.update(refused.values())
        built = entries[-1]
        faults.check_built(self.sources, roots, built.reply)
        self.told.update(faults.told_all(faults.Teller(self.sources, refused), map(transcript.fault_of, built.faults())))

    def take_pages(self, output: Output, number: int) -> None:
        """Reads the desk's pages, and puts them dressed where they are to stand."""
        made = output.desk / f"b{number}"
        dress = self.dresser(output, made)
        found = pages.below(made)
        for count, name in enumerate(found, 1):
            self.progress.tell(f"page {count:,} of {len(found):,}", is_now=False)
            data = (made / name).read_bytes()
            page = pages.page_of(name, data.decode("utf-8"))
            self.pages[page.path] = page
            output.write(page.path, dress(data, page.path))
            (made / name).unlink()
            if self.asked.verbose:
                self.say(f"page {self.shown(page.path)}")

    def dresser(self, output: Output, made: pathlib.Path) -> Callable[[bytes, str], bytes]:
        """What dresses a page; its style sheet is put there."""
        sheet = dressing.sheet_of(self.asked)
        if sheet is not None:
            output.write(style.SHEET, sheet)
        index = made / style.TERMS_PAGE
        terms = style.title_of(index.read_bytes()) if index.is_file() else None
        return dressing.dresser(self.asked, style.title_of((made / style.CONTENTS_PAGE).read_bytes()), terms)

    def finish(self, output: Output) -> None:
        """Checks the pages, copies the files to which they lead, and puts all in the place of OUT."""
        self.progress.tell("checking the links")
        self.told.update(checks.told(self.sources, self.pages, self.shown, self.asked.index))
        copied = beside.wanted(self.asked.folder, self.pages)
        self.progress.tell(f"copying {counted(len(copied), 'file')}")
        beside.copy(self.asked.folder, copied, output.pages)
        output.put()
        self.progress.clear()
        if self.asked.verbose:
            for path in copied:
                self.say(f"copied {self.shown(path)}")
        self.tell_end()

    def shown(self, path: str) -> str:
        """How messages name a page or a file of OUT."""
        return names.shown(str(self.asked.out / path))

    def tell_end(self) -> None:
        """Tells the messages, and on the last line what is there."""
        for message in self.messages():
            self.say(str(message))
        if not self.asked.quiet:
            if self.asked.index and style.TERMS_PAGE not in self.pages:
                self.say("there is no index: no page has an index term with a text")
            self.say(f"{counted(len(self.pages), 'page')} in {os.path.abspath(self.asked.out)}, {count_of(self.told)}")

    def keep(self, name: str, data: bytes) -> None:
        """Leaves a file in the folder that the call names for it."""
        if self.asked.keep is not None:
            try:
                self.asked.keep.mkdir(parents=True, exist_ok=True)
                (self.asked.keep / name).write_bytes(data)
            except OSError as error:
                raise Stop(f"{self.asked.keep / name}: can't be written: {error.strerror}") from None
