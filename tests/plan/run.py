"""Runs the tests of the planner's tool: run.py [--write] [NAME ..]. Ends with 1 if one fails, or if tests are missing.

Tests that are skipped for want of a library are named; with CI=true in the environment they count as missing.

A NAME is a module, class or test, as test_chains or test_commands.Example.test_check; without one all tests are run,
and they must be as many as the files have. With --write what is made is stored as what is expected: that is no test,
and no environment variable has it done.
"""
import ast
import os
import sys
import unittest
from pathlib import Path

import common

HERE = Path(__file__).resolve().parent
NO_LIBRARY = "no library"


def written_tests():
    """How many tests the files have."""
    trees = [ast.parse(path.read_text(encoding="utf-8")) for path in HERE.glob("test_*.py")]
    return sum(isinstance(node, ast.FunctionDef) and node.name.startswith("test_")
               for tree in trees for node in ast.walk(tree))


def main(words):
    common.WRITE = "--write" in words
    names = [word for word in words if word != "--write"]
    loader = unittest.TestLoader()
    suite = loader.loadTestsFromNames(names) if names else loader.discover(str(HERE))
    result = unittest.TextTestRunner().run(suite)
    # Where a library is not installed its tests may be skipped, but not in the gate.
    gate = os.environ.get("CI") == "true"
    excused = 0 if gate else sum(why.startswith(NO_LIBRARY) for _, why in result.skipped)
    ran, least = result.testsRun - len(result.skipped), max(1, (0 if names else written_tests()) - excused)
    for test, why in result.skipped:
        print(f"plan: skipped {test.id()}: {why}", file=sys.stderr)
    if ran < least:
        print(f"plan: {ran} tests were run, and there must be {least}", file=sys.stderr)
    if common.WRITE:
        print("plan: what was made is stored; look at it, and run the tests without --write", file=sys.stderr)
    return 0 if result.wasSuccessful() and ran >= least and not (gate and result.skipped) else 1


if __name__ == "__main__":
    sys.exit(main(sys.argv[1:]))
