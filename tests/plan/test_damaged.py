"""Of a damaged state area the tool names the object that the library names: held to the stored cases of the gate."""
import io
import re
import unittest

from common import ROOT
from planner.area import WIDE_ROOM, take_area
from planner.unpack import read_line_bytes

# The cases are those of tests/vectors.py. This kind asks for the first bad record of an area.
CASES, FIRST_BAD = ROOT / "crates" / "vectors", 12
NOT_FORMED = 9
# A fault in the record of an object.
NAMED = re.compile(r"byte \d+, object (\d+): ")
# How many cases there are at least of an area in which nothing is wrong, no record but something else, a record.
LEAST_CASES = 5


def two(stream):
    """A number in two bytes, the lower first."""
    return int.from_bytes(stream.read(2), "little")


def taken(stream):
    """Bytes after their number."""
    return stream.read(two(stream))


def cases():
    """Areas of the length that their line needs: line file, area, the first bad record, and what a call answers."""
    stream = io.BytesIO((CASES / "stdin").read_bytes())
    for row in (CASES / "stdout").read_text(encoding="utf-8").splitlines():
        _, first, answer = map(int, row.split())
        kind, case = stream.read(1)[0], io.BytesIO(taken(stream))
        if kind != FIRST_BAD or first > WIDE_ROOM:
            continue
        line, area = taken(case), bytearray(two(case))
        while place := case.read(2):
            area[int.from_bytes(place, "little")] = case.read(1)[0]
        yield line, bytes(area), first, answer


class Damaged(unittest.TestCase):
    def test_the_object_that_the_library_names(self):
        """There are faults exactly where question 9 says no, and the first object named is the library's."""
        met = dict.fromkeys(("nothing", "no record", "a record"), 0)
        for line, area, first, answer in cases():
            faults = take_area(read_line_bytes(line), area)[1]
            named = [int(found[1]) for found in map(NAMED.match, faults) if found]
            self.assertEqual((bool(faults), (named or [0])[0]), (answer == NOT_FORMED, first), faults)
            met["a record" if first else "no record" if faults else "nothing"] += 1
        self.assertGreaterEqual(min(met.values()), LEAST_CASES, met)


if __name__ == "__main__":
    unittest.main()
