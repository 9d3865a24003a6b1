"""Runs the tests of the page in a browser, as tests/plan/run.py does the others: all that are written must be run."""
import importlib.util
import sys
from pathlib import Path

HERE = Path(__file__).resolve().parent


def runner():
    """The other tests' run.py, which has this one's name."""
    spec = importlib.util.spec_from_file_location("plan_run", HERE.parent / "plan" / "run.py")
    module = importlib.util.module_from_spec(spec)
    spec.loader.exec_module(module)
    return module


if __name__ == "__main__":
    run = runner()
    run.HERE = HERE
    sys.exit(run.main(sys.argv[1:]))
