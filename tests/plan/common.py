"""What the tests of tools/plan share: where things stand, and the tool run in a folder of its own."""
import contextlib
import io
import os
import shutil
import tempfile
import unittest
from pathlib import Path

from planner import office, rewriting
from planner.cli import main

ROOT = Path(__file__).resolve().parents[2]
GOLDEN = Path(__file__).resolve().parent / "golden"
PROGRAM = office.find_office()
REWRITE = rewriting.find_rewrite()
# Whether what is made is stored as what is expected: for run.py --write to say, and for nobody else.
WRITE = False


def plan(*arguments):
    """Runs the tool in this process: status, what it printed, what it complained of."""
    out, complaints = io.StringIO(), io.StringIO()
    with contextlib.redirect_stdout(out), contextlib.redirect_stderr(complaints):
        try:
            status = main(["--office", str(PROGRAM), *(str(argument) for argument in arguments)])
        except SystemExit as stop:
            status = stop.code
    return status, out.getvalue(), complaints.getvalue()


class InFolder(unittest.TestCase):
    """A test that stands in a passing folder with a copy of examples/visit."""

    def setUp(self):
        passing = tempfile.TemporaryDirectory()
        self.addCleanup(passing.cleanup)
        self.addCleanup(os.chdir, os.getcwd())
        os.chdir(passing.name)
        shutil.copytree(ROOT / "examples" / "visit", "examples/visit")
        self.visit = Path("examples/visit")

    def same_as_golden(self, name, text):
        """Compares with a golden file."""
        self.same_as_stored(GOLDEN / name, text.encode(), f"differs from {name}")

    def same_as_example(self, name, made):
        """Compares with a file of examples/visit as it is stored."""
        self.same_as_stored(ROOT / "examples" / "visit" / name, made, f"examples/visit/{name} is not what is made")

    def same_as_stored(self, path, made, message):
        """Compares bytes with a file of the repository."""
        if WRITE:
            path.write_bytes(made)
        self.assertEqual(path.read_bytes().decode(errors="replace"), made.decode(errors="replace"), message)
        self.assertEqual(path.read_bytes(), made, message)

    def edit(self, name, old, new):
        """Changes a table of the copy; the text to change must be there."""
        path = self.visit / name
        text = path.read_text(encoding="utf-8")
        self.assertIn(old, text)
        path.write_text(text.replace(old, new, 1), encoding="utf-8")
