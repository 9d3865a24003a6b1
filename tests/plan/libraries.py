"""Whether the libraries for workbooks are at hand: ends with 1 and says which are not."""
import sys

from planner.workbook import LIBRARIES, BookError, library


def missing():
    """What is said of each sort of workbook whose library is not there."""
    found = {}
    for suffix in LIBRARIES:
        try:
            library(suffix, "read")
        except BookError as fault:
            found[suffix] = str(fault)
    return found


if __name__ == "__main__":
    absent = missing()
    print("\n".join(absent.values()), file=sys.stderr)
    sys.exit(1 if absent else 0)
