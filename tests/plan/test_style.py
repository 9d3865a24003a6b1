"""The tool stays small and plain: short lines, functions and modules, docstrings, and no import without use."""
import ast
import unittest

from common import ROOT

COLUMNS, FUNCTION_LINES, MODULE_LINES = 120, 40, 400
FILES = [*(ROOT / "tools" / name for name in ("plan", "office", "rewrite")),
         *sorted((ROOT / "tools" / "planner").glob("*.py")),
         *sorted((ROOT / "tests" / "plan").glob("*.py")), *sorted((ROOT / "tests" / "browser").glob("*.py"))]


def imported(tree):
    """The names that a module's imports bind."""
    for node in ast.walk(tree):
        if isinstance(node, (ast.Import, ast.ImportFrom)):
            for name in node.names:
                yield (name.asname or name.name).split(".")[0]


def used(tree):
    return {node.id for node in ast.walk(tree) if isinstance(node, ast.Name)}


class Style(unittest.TestCase):
    def test_modules(self):
        for path in FILES:
            with self.subTest(path.name):
                text = path.read_text(encoding="utf-8")
                tree = ast.parse(text)
                self.assertTrue(ast.get_docstring(tree), "no docstring")
                self.assertLess(len(text.splitlines()), MODULE_LINES)
                self.assertEqual([line for line in text.splitlines() if len(line) > COLUMNS], [])
                self.assertEqual(sorted(set(imported(tree)) - used(tree)), [])
                self.assertEqual([node.name for node in ast.walk(tree) if isinstance(node, ast.FunctionDef)
                                  and node.end_lineno - node.lineno >= FUNCTION_LINES], [])


if __name__ == "__main__":
    unittest.main()
