"""The archive of `make dist` works where there is Python and no toolchain, and has what the manual speaks of."""
import os
import re
import shutil
import subprocess
import sys
import tarfile
import tempfile
import unittest
from pathlib import Path

from common import GOLDEN, ROOT

PLAIN_PATH = "/usr/bin:/bin"


class Archive(unittest.TestCase):
    """Unpacked into a passing folder, and used with an environment that has nothing but a path and a fresh home."""

    @classmethod
    def setUpClass(cls):
        passing = tempfile.TemporaryDirectory()
        cls.addClassCleanup(passing.cleanup)
        done = subprocess.run(["make", "--no-print-directory", "dist"], cwd=ROOT, capture_output=True, text=True)
        assert done.returncode == 0, done.stderr
        cls.path = ROOT / done.stdout.strip().splitlines()[-1]
        with tarfile.open(cls.path) as archive:
            cls.members = {member.name: member for member in archive.getmembers()}
            archive.extractall(passing.name)
        cls.root = Path(passing.name) / cls.path.name.removesuffix(".tar.gz")
        (Path(passing.name) / "home").mkdir()
        cls.env = {"PATH": PLAIN_PATH, "HOME": f"{passing.name}/home", "LC_ALL": "C.UTF-8"}
        if not shutil.which("python3", path=PLAIN_PATH):
            (Path(passing.name) / "bin").mkdir()
            (Path(passing.name) / "bin/python3").symlink_to(sys.executable)
            cls.env["PATH"] += f":{passing.name}/bin"

    def typed(self, line):
        """Status, output and complaints of a line typed in the unpacked folder."""
        done = subprocess.run(["/bin/bash", "-c", line], cwd=self.root, env=self.env, capture_output=True, text=True,
                              timeout=120)
        return done.returncode, done.stdout, done.stderr

    def test_without_a_toolchain(self):
        self.assertEqual(self.typed("command -v rt")[:2], (1, ""))
        self.assertFalse((self.root / "crates").exists())
        expected = (GOLDEN / "check.txt").read_text(encoding="utf-8")
        self.assertEqual(self.typed("tools/plan check examples/visit"), (1, expected, ""))
        answers = subprocess.run([ROOT / "judge", "examples/visit"], cwd=ROOT, capture_output=True, text=True).stdout
        self.assertEqual(self.typed("./judge"), (1, answers, ""))

    def test_a_line_saved_anew(self):
        folder = self.root / "examples/visit"
        self.assertFalse((folder / "line.out").exists())
        self.assertEqual(self.typed("tools/rewrite examples/visit"), (0, "", ""))
        self.assertEqual((folder / "line.out").read_bytes(), (folder / "line.bin").read_bytes())
        (folder / "line.out").unlink()

    def test_a_planners_day(self):
        today = "examples/today"
        for line, status, said in (
                ("tools/plan new monday", 0, "Made in monday"), ("tools/plan check monday", 0, "0 moves"),
                (f"tools/plan start {today} {today}/state.bin --replace", 0, "byte for byte"),
                (f"tools/plan repair {today} 4 --write 1", 0, "row 7 first"),
                (f"tools/plan check {today}", 0, "11 accepted, 0 refused"),
                (f"tools/plan sheet {today}", 0, "visit-sheet.html"), (f"tools/plan page {today}", 0, "page.html"),
                (f"tools/plan picture {today} 5", 0, "picture-row-5.svg")):
            ended, text, complaints = self.typed(line)
            self.assertEqual((ended, complaints), (status, ""), line)
            self.assertIn(said, text)

    def test_what_it_has(self):
        """All modules and what they read, the files that the manual links, and nothing that only developers need."""
        names = {name.partition("/")[2] for name in self.members}
        tools = {str(path.relative_to(ROOT)) for path in (ROOT / "tools").rglob("*") if path.is_file()
                 and "__pycache__" not in path.parts}
        self.assertEqual(tools - names, {"tools/README-dist"})
        text = (self.root / "docs/PLANNER.md").read_text(encoding="utf-8")
        for link in re.findall(r"\]\(([^)#:]+)[)#]", text):
            self.assertTrue((self.root / "docs" / link).exists(), link)
        self.assertEqual({name.split("/")[0] for name in names if name},
                         {"LICENSE", "README", "docs", "examples", "judge", "target", "tools"})
        self.assertEqual([name for name in names if "__pycache__" in name or name.endswith(".new")], [])

    def test_nothing_of_this_machine_is_in_it(self):
        for member in self.members.values():
            self.assertEqual((member.uid, member.gid, member.mtime), (0, 0, 315532800), member.name)
        for path in self.root.rglob("*"):
            if path.is_file():
                self.assertNotIn(os.fsencode(ROOT) + b"/", path.read_bytes(), path)

    def test_the_same_again(self):
        before = self.path.read_bytes()
        subprocess.run(["make", "--no-print-directory", "dist"], cwd=ROOT, capture_output=True, check=True)
        self.assertEqual(self.path.read_bytes(), before)


if __name__ == "__main__":
    unittest.main()
