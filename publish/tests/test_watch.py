"""When a file counts as saved, by looks at it."""
import os
from unittest import mock

from cases import Case
from publishing import watch
from publishing.watch import Watcher


class Looks(Case):
    def setUp(self) -> None:
        super().setUp()
        self.watcher = Watcher()
        self.path = str(self.root / "a.dita")

    def save(self, text: str, time: int) -> None:
        (self.root / "a.dita").write_text(text)
        os.utime(self.path, ns=(time, time))

    def look(self, now: float = 0.0) -> dict[str, str]:
        self.watcher.look()
        return self.watcher.changed(now)

    def test_a_file_is_saved_once_two_looks_find_the_same(self):
        self.save("a", 1)
        self.watcher.add(self.path)
        self.assertEqual([self.look(), self.look()], [{}, {}])
        self.save("ab", 2)
        self.assertEqual(self.look(), {})
        self.save("abc", 3)
        self.assertEqual([self.look(), self.look(), self.look()], [{}, {self.path: "changed"}, {}])

    def test_the_same_size_or_the_same_time(self):
        self.save("a", 1)
        self.watcher.add(self.path)
        for text, time in [("b", 2), ("bb", 2)]:
            self.save(text, time)
            self.assertEqual([self.look(), self.look()], [{}, {self.path: "changed"}])

    def test_another_file_of_the_same_size_and_time_that_is_renamed_to_it(self):
        self.save("a", 1)
        self.watcher.add(self.path)
        os.rename(self.path, self.path + "~")
        self.save("b", 1)
        self.assertEqual([self.look(), self.look()], [{}, {self.path: "changed"}])

    def test_a_file_that_comes_and_goes(self):
        self.watcher.add(self.path)
        self.save("a", 1)
        self.assertEqual([self.look(), self.look()], [{}, {self.path: "new"}])
        os.unlink(self.path)
        self.assertEqual([self.look(), self.look()], [{}, {self.path: "removed"}])

    def test_a_file_that_is_away_for_one_look_is_not_removed(self):
        self.save("a", 1)
        self.watcher.add(self.path)
        os.rename(self.path, self.path + "~")
        self.assertEqual(self.look(), {})
        os.rename(self.path + "~", self.path)
        self.assertEqual([self.look(), self.look()], [{}, {}])

    def test_files_that_are_still_written_are_waited_for_a_second(self):
        other = str(self.root / "b.dita")
        self.save("a", 1)
        for path in (self.path, other):
            self.watcher.add(path)
        self.save("ab", 2)
        self.look(10.0)
        found = []
        for count in range(12):
            (self.root / "b.dita").write_text("b" * count)
            found.append(self.look(10.0 + count / 10))
        self.assertEqual(found, [{}] * 10 + [{self.path: "changed"}, {}])
        self.assertEqual(self.look(12.0), {other: "new"})

    def test_what_is_not_watched_any_more(self):
        self.save("a", 1)
        self.watcher.add(self.path)
        self.watcher.keep([])
        self.save("ab", 2)
        self.assertEqual([self.look(), self.look()], [{}, {}])

    def test_at_most_twenty_looks_a_second(self):
        self.save("a", 1)
        self.watcher.add(self.path)
        clock, slept = [0.0], []

        def sleep(seconds: float) -> None:
            slept.append(seconds)
            clock[0] += seconds
            if len(slept) == 3:
                self.save("ab", 2)

        def stamp(path: str) -> watch.Stamp:
            clock[0] += 0.03 if len(slept) > 3 else 0.002
            return os.stat(path).st_size, 0

        with mock.patch("time.sleep", sleep), mock.patch("time.monotonic", lambda: clock[0]), mock.patch("publishing.watch.stamp_of", stamp):
            self.watcher.known[self.path] = (1, 0)
            self.assertEqual(self.watcher.wait(), {self.path: "changed"})
        self.assertEqual([round(it, 3) for it in slept], [0.048, 0.048, 0.048, 0.048])
