"""The tools on the release, in a repository of two crates and a third that the program does not stand on."""
import hashlib
import os
import shutil
import subprocess
import sys

from cases import TOOL, TOP, Case

FILES = {
    "crates.txt": "# a comment\nlow: clap\ndita_desk: low\nlaws: dita_desk\n", "README.md": "There is none: `release/` is empty.\n",
    "crates/low/src/lib.rt": "low", "crates/low/proofs/f/Answers.antt": "proof", "crates/low/README.md": "page",
    "crates/dita_desk/src/main.rt": "main", "crates/laws/src/lib.rt": "laws", ".gitignore": "out/\n__pycache__/\n",
}


class Release(Case):
    def setUp(self) -> None:
        super().setUp()
        self.top = self.root / "top"
        self.put(FILES, self.top)
        shutil.copytree(TOP / "tools", self.top / "tools", ignore=shutil.ignore_patterns("__pycache__"))
        shutil.copytree(TOOL / "publishing", self.top / "publish/publishing", ignore=shutil.ignore_patterns("__pycache__"))
        self.git("init", "-q")
        self.commit()

    def git(self, *words: str) -> str:
        known = ["-c", "user.name=Test", "-c", "user.email=test@example.com", "-c", "commit.gpgsign=false"]
        return subprocess.run(["git", *known, *words], cwd=self.top, capture_output=True, text=True, check=True).stdout.strip()

    def commit(self) -> None:
        self.git("add", "-A")
        self.git("commit", "-q", "-m", "x")

    def tool(self, name: str, *words: str) -> tuple[int, str]:
        ended = subprocess.run([sys.executable, f"tools/{name}", *words], cwd=self.top, capture_output=True, text=True, timeout=60)
        return ended.returncode, ended.stdout + ended.stderr

    def release(self, **facts: str) -> None:
        """Puts a release there as tools/release does, of the last commit and of a program that is a text."""
        program = b"program"
        self.put({"README.md": "There is one.\n"}, self.top)
        about = {"program": "dita_desk", "sha256": hashlib.sha256(program).hexdigest(), "unstripped": hashlib.sha256(b"built").hexdigest() + ", 5 bytes",
                 "kit": "k", "commit": self.git("rev-parse", "HEAD"), "sources": self.tool("source-sum")[1].strip(), **facts}
        lines = "".join(f"{name} {value}\n" for name, value in about.items())
        seal = hashlib.sha256(lines.encode()).hexdigest()
        self.put({"dita_desk": program, "dita_desk.sha256": f"{about['sha256']}  dita_desk\n", "about": f"{lines}seal {seal}\n"}, self.top / "release")

    def refused(self, *said: str) -> None:
        status, output = self.tool("check-release")
        self.assertEqual(status, 1, output)
        for piece in said:
            self.assertIn(piece, output)

    def test_the_sum_is_of_the_sources_below_the_program_alone(self):
        first = self.tool("source-sum")
        self.assertEqual((first, first[0]), (self.tool("source-sum", "HEAD"), 0))
        for path in ("crates/laws/src/lib.rt", "crates/low/README.md", "crates/low/out/rest.rt"):
            self.put({path: "changed"}, self.top)
            self.assertEqual(self.tool("source-sum"), first, path)
        self.put({"crates.txt": FILES["crates.txt"] + "# more\nmore:\n"}, self.top)
        self.assertEqual(self.tool("source-sum"), first)
        for path, text in [("crates/low/src/lib.rt", "changed"), ("crates/low/proofs/f/Answers.antt", "changed"), ("crates/low/specs/More.antt", ""),
                           ("crates.txt", FILES["crates.txt"].replace("low: clap", "low:"))]:
            self.put({path: text}, self.top)
            self.assertNotEqual(self.tool("source-sum"), first, path)
            self.git("checkout", "-q", ".")
            self.git("clean", "-q", "-f", "-d")
            self.assertEqual(self.tool("source-sum"), first)

    def test_no_release(self):
        self.assertEqual(self.tool("check-release"), (0, "release: there is none yet, as README.md says; tools/release makes it from the "
                                                         "program that `rt ci` built\n"))
        self.put({"README.md": "Nothing.\n"}, self.top)
        self.refused("release: there is none, and README.md does not say so")

    def test_a_release_and_how_far_it_lies_behind(self):
        self.release()
        commit = self.git("rev-parse", "HEAD")[:12]
        self.assertEqual(self.tool("check-release"), (0, f"release: it is of commit {commit}, 0 commits behind this one, 0 of which changed crates\n"))
        self.commit()
        self.put({"crates/low/src/lib.rt": "changed"}, self.top)
        self.commit()
        self.assertEqual(self.tool("check-release"), (0, f"release: it is of commit {commit}, 2 commits behind this one, 1 of which changed crates\n"))

    def test_what_was_changed_by_hand(self):
        for path, text, said in [
            ("release/dita_desk", "other", "release/dita_desk has the checksum "), ("release/more", "", "release/more was not put there by tools/release"),
            ("release/about", "sha256 0\n", "release/about was not written by tools/release"),
            ("release/dita_desk.sha256", "0  dita_desk\n", "release/dita_desk.sha256 is not that of release/about"),
            ("README.md", FILES["README.md"], "README.md says that there is no release, and there is one"),
        ]:
            self.release()
            self.put({path: text}, self.top)
            self.refused(said)
            shutil.rmtree(self.top / "release")
        self.release()
        (self.top / "release/dita_desk").unlink()
        self.refused("release/dita_desk is missing")

    def test_sources_that_are_not_those_of_the_commit(self):
        self.release(sources="0" * 64)
        self.refused("the sources of commit ", f"and release/about says {'0' * 64}")
        self.release(commit="1" * 40)
        self.refused("the sources of the release can't be read: git ls-tree: ", "this check needs the whole history")

    def test_whether_a_program_built_here_of_the_same_sources_is_the_same_is_said(self):
        self.put({"crates/dita_desk/out/dita_desk": b"built"}, self.top)
        os.chmod(self.top / "crates/dita_desk/out/dita_desk", 0o755)
        self.release()
        status, said = self.tool("check-release")
        self.assertEqual((status, "; the program that is built here is the same, byte for byte\n" in said), (0, True), said)
        self.put({"crates/dita_desk/out/dita_desk": b"rebuilt"}, self.top)
        status, said = self.tool("check-release")
        self.assertEqual((status, "; the program that is built here of the same sources has other bytes" in said), (0, True), said)

    def test_a_release_is_made_of_what_was_committed_and_built(self):
        status, said = self.tool("release")
        self.assertEqual((status, "there is no program: `rt ci` or tools/build makes it" in said), (1, True), said)
        self.put({"crates/dita_desk/out/dita_desk": b"built"}, self.top)
        os.chmod(self.top / "crates/dita_desk/out/dita_desk", 0o755)
        self.put({"crates/low/src/lib.rt": "changed"}, self.top)
        os.utime(self.top / "crates/low/src/lib.rt", (1000, 1000))
        status, said = self.tool("release")
        self.assertEqual((status, "the sources are not those of the last commit: commit them first" in said), (1, True), said)
        os.utime(self.top / "crates/low/src/lib.rt", (1 << 32, 1 << 32))
        status, said = self.tool("release")
        self.assertEqual((status, "a source was changed behind it: build it again" in said), (1, True), said)
        self.assertFalse((self.top / "release").exists())
