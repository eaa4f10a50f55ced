"""The pages of a live site: those of the last build, each with the row that it came in."""
from __future__ import annotations

import dataclasses

import style
from publishing import pages, rows
from publishing.message import Stop
from publishing.session import Built


@dataclasses.dataclass(frozen=True, slots=True)
class Shown:
    """A page as the desk made it: the serial of its row (0 if that is of a desk that ended), its bytes, and what stands in it."""

    serial: int
    data: bytes
    page: pages.Page


@dataclasses.dataclass(frozen=True)
class Change:
    """What a build changed: how many of its pages were made and how many found again, and the names of those that are other pages now.
    `has_title` if the title of the contents page is another one."""

    made: int
    found: int
    names: set[str]
    has_title: bool


class Site:
    """The pages by their names at the desk. `seen` are the rows that this desk showed: a row that it shows again was not made again."""

    def __init__(self) -> None:
        self.shown: dict[str, Shown] = {}
        self.seen: set[int] = set()

    def forget_rows(self) -> None:
        """Another desk makes the rows from now on."""
        self.seen = set()
        self.shown = {name: dataclasses.replace(it, serial=0) for name, it in self.shown.items()}

    @property
    def title(self) -> bytes:
        contents = self.shown.get(style.CONTENTS_PAGE)
        return style.title_of(contents.data) if contents is not None else b""

    def by_path(self) -> dict[str, pages.Page]:
        """What stands in each page, by its path below OUT."""
        return {it.page.path: it.page for it in self.shown.values()}

    def take(self, built: Built) -> Change:
        """Takes the pages of a build in the place of those before."""
        shown = {page.name: self.page(page, message) for page, message in zip(built.pages, built.rows)}
        serials = {page.serial for page in built.pages}
        names = {name for name, it in shown.items() if name not in self.shown or it.data is not self.shown[name].data}
        title, before = self.title, self.shown
        made = sum(page.serial not in self.seen for page in built.pages)
        self.shown = shown
        self.seen |= serials
        return Change(made, len(built.pages) - made, names | (before.keys() - shown.keys()), title != self.title)

    def page(self, page: rows.Page, message: bytes) -> Shown:
        """A page of a build; the one that is known if its row or its bytes are."""
        before = self.shown.get(page.name)
        if before is not None and before.serial == page.serial:
            return before
        try:
            data = rows.page_in(message, page)
            if before is not None and before.data == data:
                return dataclasses.replace(before, serial=page.serial)
            return Shown(page.serial, data, pages.page_of(page.name, data.decode("utf-8")))
        except (rows.Unread, UnicodeDecodeError) as fault:
            raise Stop(f"the desk's answer can't be read: {fault}") from None
