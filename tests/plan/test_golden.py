"""The comparison with stored files can fail, and nothing in the environment makes it pass."""
import os
import subprocess
import sys
import tempfile
import unittest
from pathlib import Path
from unittest import mock

import common
import run
from common import InFolder

TEST = """import unittest
class One(unittest.TestCase):
    def {}(self):
        self.assertEqual({}, 1)
"""


class Stored(InFolder):
    def setUp(self):
        """Another folder in place of the golden files, so that a fault here cannot spoil them."""
        super().setUp()
        Path("golden").mkdir()
        self.path = Path("golden/new.txt")
        self.path.write_text("what is expected", encoding="utf-8")
        place = mock.patch.object(common, "GOLDEN", Path("golden").resolve())
        place.start()
        self.addCleanup(place.stop)

    def test_another_text_is_a_failure(self):
        self.same_as_golden("new.txt", "what is expected")
        for value in ("write", "1", ""):
            with mock.patch.dict(os.environ, GOLDEN=value), self.assertRaises(AssertionError):
                self.same_as_golden("new.txt", "what is made")
        self.assertEqual(self.path.read_text(encoding="utf-8"), "what is expected")

    def test_only_write_stores(self):
        with mock.patch.object(common, "WRITE", True):
            self.same_as_golden("new.txt", "what is made")
        self.assertEqual(self.path.read_text(encoding="utf-8"), "what is made")


class Runner(unittest.TestCase):
    def run_on(self, *texts, **variables):
        """The status of run.py in a folder with these test files, and with variables of the environment."""
        with tempfile.TemporaryDirectory() as folder:
            for name in ("run.py", "common.py"):
                Path(folder, name).symlink_to(Path(run.__file__).with_name(name))
            for number, text in enumerate(texts):
                Path(folder, f"test_{number}.py").write_text(text, encoding="utf-8")
            with mock.patch.dict(os.environ, PYTHONPATH=f"{folder}:{os.environ['PYTHONPATH']}", **variables):
                code = "import run, sys, pathlib; run.HERE = pathlib.Path(sys.argv[1]); sys.exit(run.main([]))"
                return subprocess.run([sys.executable, "-c", code, folder], capture_output=True, timeout=60).returncode

    def test_tests_must_be_there_and_pass(self):
        self.assertEqual(self.run_on(TEST.format("test_one", 1)), 0)
        self.assertEqual(self.run_on(TEST.format("test_one", 2)), 1)
        self.assertEqual(self.run_on(), 1)
        self.assertEqual(self.run_on(TEST.format("test_one", 1), "def test_alone():\n    pass\n"), 1)

    def test_only_want_of_a_library_excuses_a_test_and_not_in_the_gate(self):
        for why, gate, status in (("no library for .ods", "", 0), ("no library for .ods", "true", 1), ("late", "", 1)):
            skipped = TEST.format("test_two", 1).replace("    def", f"    @unittest.skip('{why}')\n    def")
            self.assertEqual(self.run_on(TEST.format("test_one", 1), skipped, CI=gate), status, (why, gate))


if __name__ == "__main__":
    unittest.main()
