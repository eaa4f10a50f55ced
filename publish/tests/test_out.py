"""OUT: what is replaced, what stays, and that nothing is lost when a call does not end as it should."""
import contextlib
import ctypes
import io
import os
import pty
import resource
import shutil
import signal
import subprocess
import sys
import time
from unittest import mock

from cases import PUBLISH, Case, map_of, topic
from publishing import command
from publishing.output import MARKER, Output, exchange

FILES = {"m.ditamap": map_of("t.dita", "u.dita"), "t.dita": topic("<image href='a.png'/>"), "u.dita": topic("", "u"), "a.png": b"x"}


def obey_permissions() -> None:
    """Has permissions count for a call by root too: it starts without the right to pass over them (CAP_DAC_OVERRIDE, .._READ_SEARCH)."""
    for capability in (1, 2):
        ctypes.CDLL(None).prctl(24, capability, 0, 0, 0)


def heed_signals() -> None:
    """Has interrupts reach a call where those who started the tests ignore them, as a job in the background does."""
    for number in (signal.SIGINT, signal.SIGTERM, signal.SIGHUP):
        signal.signal(number, signal.SIG_DFL)


class Out(Case):
    def files(self) -> list[str]:
        """The files of OUT without the marker."""
        return sorted(str(path.relative_to(self.out)) for path in self.out.rglob("*") if not path.is_dir() and path.name != MARKER)

    def test_an_empty_folder_and_one_of_this_tool_are_replaced(self):
        self.out.mkdir()
        self.publish(FILES)
        self.assertEqual(self.files(), ["a.png", "index.html", "t.html", "u.html"])
        self.put({"m.ditamap": map_of("u.dita")})
        self.publish({})
        self.assertEqual(self.files(), ["index.html", "u.html"])
        self.assertEqual(self.left(), ["out"])

    def test_a_folder_of_others_is_refused(self):
        self.put({"notes.txt": "mine"}, self.out)
        result = self.publish(FILES, status=2)
        self.assertIn("publish: out: is not empty, and was not made by this tool: name a new folder, or empty this one first", result.errors)
        self.assertEqual((self.files(), self.left()), (["notes.txt"], ["out"]))

    def test_a_file_is_refused(self):
        self.out.write_text("mine")
        result = self.publish(FILES, status=2)
        self.assertIn("publish: out: is a file: name a folder for the pages", result.errors)
        self.assertEqual((self.out.read_text(), self.left()), ("mine", ["out"]))

    def test_the_folder_of_the_documents_is_refused(self):
        self.put(FILES)
        for out in ("docs", ".", "/"):
            result = self.call("docs", "m.ditamap", out)
            self.assertEqual(result.status, 2)
            self.assertIn(f"publish: {out}: the documents lie in this folder: name another one for the pages", result.errors)
        self.assertEqual(self.left(), [])

    def test_what_others_put_there_stays_unless_clean(self):
        self.publish(FILES)
        os.chmod(self.out, 0o750)
        self.put({"CNAME": "docs.example.com", ".git/HEAD": "ref", "more/notes.txt": "mine"}, self.out)
        (self.out / "link").symlink_to("/nowhere")
        (self.out / "empty").mkdir()
        self.put({"m.ditamap": map_of("u.dita")})
        self.publish({})
        self.assertEqual(self.files(), [".git/HEAD", "CNAME", "index.html", "link", "more/notes.txt", "u.html"])
        self.assertEqual(((self.out / "empty").is_dir(), os.readlink(self.out / "link")), (True, "/nowhere"))
        self.assertEqual(self.out.stat().st_mode & 0o777, 0o750)
        self.publish({})
        self.assertEqual(self.files(), [".git/HEAD", "CNAME", "index.html", "link", "more/notes.txt", "u.html"])
        self.publish({}, "--clean")
        self.assertEqual(self.files(), ["index.html", "u.html"])

    def test_a_file_of_others_in_the_place_of_a_page_is_refused(self):
        self.publish({"m.ditamap": map_of("u.dita"), "t.dita": topic(""), "u.dita": topic("", "u")})
        self.put({"t.html": "mine"}, self.out)
        result = self.publish({"m.ditamap": map_of("t.dita")}, status=2)
        self.assertIn("out/t.html: was not made by this tool, and a page or a file is to stand in its place: move it away, or give --clean",
                      result.errors)
        self.assertEqual((self.page("t.html"), self.left()), ("mine", ["out"]))
        self.publish({}, "--clean")
        self.assertIn("<h1>T</h1>", self.page("t.html"))

    def test_out_that_is_a_link(self):
        (self.root / "real").mkdir()
        os.symlink("real", self.out)
        self.publish(FILES)
        self.publish(FILES)
        self.assertEqual((os.readlink(self.out), self.left()), ("real", ["out", "real"]))
        self.assertTrue((self.out / "t.html").is_file())

    def test_keep_leaves_script_and_transcript(self):
        self.publish(FILES, "--keep", "kept/here")
        script = (self.root / "kept/here/script").read_text()
        self.assertTrue(script.startswith("1 put m.ditamap\n") and script.endswith("1 build m.ditamap\n"), script)
        self.assertTrue((self.root / "kept/here/transcript").read_text().startswith("dita transcript 1\nentry 0 1 1 stored 1\n"))

    def test_a_style_of_ones_own(self):
        self.put(FILES | {"own.css": "p { color: red }"})
        self.assertEqual(self.call("docs", "m.ditamap", "out", "--style", "docs/own.css").status, 0)
        self.assertEqual((self.out / "dita_desk.css").read_text(), "p { color: red }")
        self.assertIn('href="dita_desk.css"', self.page("t.html"))
        result = self.call("docs", "m.ditamap", "out", "--style", "gone.css")
        self.assertEqual(result.status, 2)
        self.assertIn("publish: gone.css: the style sheet can't be read: No such file or directory", result.errors)
        self.assertEqual((self.out / "dita_desk.css").read_text(), "p { color: red }")

    def test_quiet_and_verbose(self):
        files = FILES | {"m.ditamap": map_of("t.dita", "gone.dita"), "a.png": b"x"}
        fault = "docs/m.ditamap:1:47: there is no topic `gone.dita`: it gets no page (TopicMissing)"
        self.assertEqual(self.publish(files, "-q").output, fault + "\n")
        self.assertEqual(self.publish(files).output, f"{fault}\n2 pages in {self.out}, 1 fault\n")
        self.assertEqual(self.publish(files, "-v").output.splitlines()[:-2],
                         ["read docs/m.ditamap", "read docs/t.dita", "page out/index.html", "page out/t.html", "copied out/a.png"])


class Ends(Case):
    """Calls that do not end as they should. OUT stands there before, and must be as it was."""

    def setUp(self) -> None:
        super().setUp()
        self.publish(FILES)
        self.before = {path: path.read_bytes() for path in self.out.rglob("*") if path.is_file()}
        self.put({"m.ditamap": map_of("u.dita")})

    def same(self) -> None:
        self.assertEqual({path: path.read_bytes() for path in self.out.rglob("*") if path.is_file()}, self.before)
        self.assertEqual(self.left(), ["out"])

    def slow_desk(self) -> dict[str, str]:
        """An environment with a desk that writes a page and then does not end."""
        code = "import time, pathlib, sys; pathlib.Path(sys.argv[3], \"b3\").mkdir(); time.sleep(60)"
        return os.environ | {"DITA_DESK": f"{sys.executable} -c '{code}'"}

    def test_interrupts(self):
        for number in (signal.SIGINT, signal.SIGTERM, signal.SIGHUP):
            child = subprocess.Popen([sys.executable, str(PUBLISH), "docs", "m.ditamap", "out"], cwd=self.root, env=self.slow_desk(),
                                     stdout=subprocess.PIPE, stderr=subprocess.PIPE, preexec_fn=heed_signals)
            for _ in range(200):
                if any(self.root.glob(".out.publish-*/desk/b3")):
                    break
                time.sleep(0.05)
            child.send_signal(number)
            output, errors = child.communicate(timeout=30)
            self.assertEqual((child.returncode, output, errors), (2, b"", b"publish: interrupted: nothing is published\n"), number)
            self.same()

    def test_an_interrupt_while_out_is_replaced(self):
        """It comes when OUT stands there, and not between its two renames, of which this test has the first one interrupt."""
        output = Output(self.out, self.docs, False)
        rename = os.rename

        def interrupting(old: os.PathLike, new: os.PathLike) -> None:
            os.kill(os.getpid(), signal.SIGINT)
            rename(old, new)

        before = signal.signal(signal.SIGINT, signal.default_int_handler)
        self.addCleanup(signal.signal, signal.SIGINT, before)
        with self.assertRaises(KeyboardInterrupt), output:
            (output.pages / "new.html").write_text("new")
            with mock.patch("publishing.output.exchange", return_value=False), mock.patch("os.rename", interrupting):
                output.put()
        self.assertTrue(output.is_put)
        self.assertEqual(((self.out / "new.html").is_file(), (self.out / "t.html").exists(), self.left()), (True, False, ["out"]))

    def test_out_is_replaced_in_one_step(self):
        """No call of two takes OUT away first, if the system exchanges folders."""
        (self.root / "one").mkdir()
        (self.root / "other").mkdir()
        if not exchange(self.root / "one", self.root / "other"):
            self.skipTest("this system exchanges no folders")
        shutil.rmtree(self.root / "one")
        shutil.rmtree(self.root / "other")
        with Output(self.out, self.docs, False) as output, mock.patch("os.rename", side_effect=OSError):
            (output.pages / "new.html").write_text("new")
            output.put()
        self.assertEqual(((self.out / "new.html").is_file(), (self.out / "t.html").exists(), self.left()), (True, False, ["out"]))

    def test_an_interrupt_where_the_folder_beside_out_is_made_or_removed(self):
        """It comes behind the making, before the folder is in use, or before the removing."""
        enter = Output.__enter__

        def made(output: Output) -> None:
            enter(output)
            os.kill(os.getpid(), signal.SIGTERM)

        def left(*_: object) -> None:
            os.kill(os.getpid(), signal.SIGTERM)

        for number in command.SIGNALS:
            self.addCleanup(signal.signal, number, signal.getsignal(number))
        for name, interrupting in (("__enter__", made), ("__exit__", left)):
            with mock.patch.object(Output, name, interrupting), contextlib.redirect_stderr(io.StringIO()) as errors:
                signal.signal(signal.SIGTERM, command.interrupt)
                with mock.patch.object(command, "prepare"):
                    status = command.main([str(self.docs), "m.ditamap", str(self.out), "-q"])
            self.assertEqual((name, status, self.left()), (name, 2 if name == "__enter__" else 0, ["out"]), errors.getvalue())

    def test_a_desk_that_fails(self):
        for words, said in [("false", "the desk ended with status 1"), ("true", "the desk's answer has not as many entries"),
                            ("/no/such/program", "the program does not start: No such file"),
                            ("sh -c 'kill -9 $$'", "the desk was stopped by signal 9"), ("sh -c 'exit 5'", "memory ran out"),
                            ("sh -c 'echo >&2 dita_desk: OutletFault; echo >&2 b3/t.html: No space left; exit 7'",
                             "a page could not be written: b3/t.html: No space left")]:
            result = self.call("docs", "m.ditamap", "out", env=os.environ | {"DITA_DESK": words})
            self.assertEqual(result.status, 2)
            self.assertIn(said, result.errors)
            self.same()

    def test_no_more_than_some_bytes_of_a_file(self):
        """A limit of the system on files comes to a write as a full disk does."""
        def limit() -> None:
            resource.setrlimit(resource.RLIMIT_FSIZE, (200, 200))
        self.put({"a.png": b"x" * 4096, "m.ditamap": map_of("t.dita")})
        result = self.call("docs", "m.ditamap", "out", preexec_fn=limit)
        self.assertEqual(result.status, 2, result)
        self.assertNotIn("Traceback", result.errors)
        self.same()

    def test_a_full_disk(self):
        small = self.root / "small"
        small.mkdir()
        mounted = subprocess.run(["mount", "-t", "tmpfs", "-o", "size=64k", "tmpfs", str(small)], capture_output=True)
        if mounted.returncode != 0:
            small.rmdir()
            self.skipTest("no disk can be mounted here")
        self.addCleanup(small.rmdir)
        self.addCleanup(subprocess.run, ["umount", str(small)], check=True)
        self.put({"m.ditamap": map_of("u.dita"), "big.ditamap": map_of("big.dita"), "big.dita": topic("<p>" + "x" * 100000 + "</p>"),
                  "copy.ditamap": map_of("t.dita"), "a.png": b"x" * 100000})
        self.assertEqual(self.call("docs", "m.ditamap", "small/out", "--no-style").status, 0)
        for name, said in [("big.ditamap", "a page could not be written: "), ("copy.ditamap", "a.png: the file can't be copied: No space left")]:
            result = self.call("docs", name, "small/out", "--no-style")
            self.assertEqual(result.status, 2)
            self.assertIn(said, result.errors)
            self.assertEqual(sorted(path.name for path in small.rglob("*")), [MARKER, "index.html", "out", "u.html"])

    def test_no_permission(self):
        os.chmod(self.root, 0o555)
        self.addCleanup(os.chmod, self.root, 0o755)
        result = self.call("docs", "m.ditamap", "out", preexec_fn=obey_permissions)
        self.assertEqual(result.status, 2, result)
        self.assertIn("publish: out: no folder can be made beside it: Permission denied", result.errors)
        self.same()

    def test_a_document_that_may_not_be_read(self):
        os.chmod(self.docs / "u.dita", 0)
        result = self.call("docs", "m.ditamap", "new", preexec_fn=obey_permissions)
        self.assertEqual(result.status, 0, result)
        self.assertEqual(result.told[-1], "docs/u.dita: the file can't be read: Permission denied: the document is left out")

    def test_closed_input_and_output(self):
        self.put({"m.ditamap": map_of("u.dita", "gone.dita")})
        for redirect in ("<&-", ">&-", "2>&-", "<&- >&- 2>&-", "| true", ">/dev/full 2>&-"):
            ended = subprocess.run(["sh", "-c", f'"$0" "$1" docs m.ditamap new {redirect}', sys.executable, str(PUBLISH)], cwd=self.root,
                                   capture_output=True, timeout=60)
            self.assertEqual((ended.returncode, ended.stderr), (0, b""), redirect)
            self.assertTrue((self.root / "new" / "u.html").is_file())
            subprocess.run(["rm", "-r", str(self.root / "new")], check=True)
        result = subprocess.run(["sh", "-c", '"$0" "$1" docs m.ditamap new >/dev/full', sys.executable, str(PUBLISH)], cwd=self.root,
                                capture_output=True, timeout=60)
        self.assertEqual(result.stderr, b"publish: standard output: No space left on device\n")


class Progress(Case):
    def shown(self, *words: str) -> str:
        """What a terminal shows of standard error."""
        self.put(FILES)
        here, there = pty.openpty()
        self.addCleanup(os.close, here)
        with os.fdopen(there, "wb") as stream:
            ended = subprocess.run([sys.executable, str(PUBLISH), "docs", "m.ditamap", "out", *words], cwd=self.root, stdout=subprocess.PIPE,
                                   stderr=stream, timeout=60)
            self.assertEqual(ended.returncode, 0)
            os.write(there, b"|")
        shown = b""
        while not shown.endswith(b"|"):
            shown += os.read(here, 1 << 16)
        return shown.decode("utf-8")

    def test_one_line_that_is_gone_at_the_end(self):
        shown = self.shown()
        self.assertIn("the desk builds from 3 documents", shown)
        self.assertIn("\r\033[K", shown)
        self.assertNotIn("\n", shown)
        self.assertTrue(shown.endswith("\r\033[K|"), shown)

    def test_nothing_if_quiet_or_no_terminal(self):
        self.assertEqual(self.shown("-q"), "|")
        self.assertEqual(self.publish(FILES).errors, "")
