"""Of a line file that import refuses by 1 to 4 the number at fault is named, and it is the one the program means."""
import random
import unittest
from pathlib import Path

from common import PROGRAM, ROOT, InFolder, plan
from lines import SERIALS, random_line, wide_line, with_serials
from planner import office, pack
from planner import wording as w
from planner.line_faults import file_findings
from planner.unpack import read_line_bytes

LINE_L = (ROOT / "crates" / "office" / "data" / "line.bin").read_bytes()
# L as edition 2, with serials 70,000 and 0: cards from byte 23 on, values from byte 29 on.
WITH_SERIALS = bytes([2]) + LINE_L[1:23] + bytes([1, 240, 162, 4, 2, 0]) + LINE_L[25:]
CARDS = 23
# Files, the question that refuses each, and what is said of it.
FAULTS = [
    (b"", 1, "the file ends after 0 bytes, before the edition"),
    (b"\x80", 1, "the file ends after 1 byte, inside the edition"),
    (b"\x00", 3, "byte 0: edition 0 is not 1 or 2"),
    (b"\x03", 3, "byte 0: edition 3 is not 1 or 2"),
    (b"\xf0\xa2\x04", 3, "byte 0: edition 70000 is not 1 or 2"),
    (b"\x01\xf0\xa2\x04", 3, "byte 1: the count of drivers is 70000, and must be from 0 to 16"),
    (b"\x02\x80\x80\x80\x01", 2, "byte 1: the count of drivers has more than three bytes"),
    (b"\x02\x02\x91\x00", 2, "byte 2: the count of cards is not in its shortest form"),
    (WITH_SERIALS[:24], 1, "the file ends after 24 bytes, before the serial of card 1"),
    (WITH_SERIALS[:26], 1, "the file ends after 26 bytes, inside the serial of card 1"),
    (WITH_SERIALS[:CARDS + 1] + b"\x80\x80\x00", 2, "byte 24: the serial of card 1 is not in its shortest form"),
    (WITH_SERIALS[:CARDS + 1] + b"\x80\x80\x80\x01", 2, "byte 24: the serial of card 1 has more than three bytes"),
    (WITH_SERIALS[:CARDS + 1] + b"\xff\xff\x7f\x06", 3,
     "byte 27: the hard-wired value of card 2 is 6, and must be from 0 to 5"),
    (WITH_SERIALS + b"\x00", 4, "byte 49: the last value ends before it, and 1 byte is left over"),
    (b"\x02\x00\x00\x00\x00\x00\x00", 4, "byte 5: the last value ends before it, and 2 bytes are left over"),
    (b"\x01\x00\x00\x01\x00\x05", 3, "byte 5: the kind of object 1 is 5, and must be from 1 to 4"),
    (b"\x01\x00\x00\x01\x00\x03\x01\x01", 3, "byte 7: the owner of object 1 is 1, and there is none"),
    (b"\x01\x00\x00\x01\x00\x03\x00\x01", 3, "byte 7: the owner of object 1 is 1, and must be 0"),
    (LINE_L[:28] + b"\x01", 3, "byte 28: the put value of entry 1 of value 1 is 1, and must be 0"),
]


def lines():
    """Lines of both editions, with serials of every length."""
    for seed in range(6):
        config = (random_line, wide_line)[seed % 2](seed)
        yield pack.line_bytes(config)
        yield pack.line_bytes(with_serials(config, *SERIALS[seed + 1:], *SERIALS))


class Told(InFolder):
    def test_each(self):
        for data, question, text in FAULTS:
            self.assertEqual(office.judge(PROGRAM, data, b"").refused_line, question, text)
            self.assertEqual(file_findings(data, question), [text])
            Path("bad.bin").write_bytes(data)
            said = f"plan: bad.bin: refused by question {question}: {w.question(question)} No: {text.capitalize()[0]}"
            self.assertEqual(plan("import", "bad.bin", "bad"), (1, "", f"{said}{text[1:]}.\n"))
            self.assertFalse(Path("bad").exists())

    def test_only_an_answer_that_was_given(self):
        for data, question, _ in FAULTS:
            self.assertEqual([file_findings(data, other) for other in range(1, 7) if other != question], [[]] * 5)
        self.assertEqual([file_findings(WITH_SERIALS, answer) for answer in range(7)], [[]] * 7)


class Cut(unittest.TestCase):
    def test_at_every_byte(self):
        """By question 1, with the number of bytes that are left."""
        for line in [LINE_L, WITH_SERIALS, *lines()]:
            for count in range(len(line)):
                text, = file_findings(line[:count], 1)
                self.assertTrue(text.startswith(f"the file ends after {count} byte"), text)
        for count in range(len(WITH_SERIALS)):
            self.assertEqual(office.judge(PROGRAM, WITH_SERIALS[:count], b"").refused_line, 1)

    def test_inside_a_serial(self):
        """Of serials of one, two and three bytes."""
        for serial in SERIALS:
            for other in (1, SERIALS[-1]):
                line = pack.line_bytes(with_serials(read_line_bytes(LINE_L), serial, other))
                first, second = len(pack.number(serial)), len(pack.number(other))
                places = [(1, "card 1", count) for count in range(first)]
                places += [(2 + first, "card 2", count) for count in range(second)]
                for start, card, count in places:
                    where = "inside" if count else "before"
                    cut = CARDS + start + count
                    self.assertEqual(file_findings(line[:cut], 1),
                                     [f"the file ends after {cut} bytes, {where} the serial of {card}"])


class Damaged(unittest.TestCase):
    def test_what_the_program_answers_is_found(self):
        """Bytes changed, put in and left out at random: for each refusal by 1 to 4 a number is named."""
        met = {number: 0 for number in range(1, 5)}
        for seed, line in enumerate(lines()):
            rng = random.Random(seed)
            for _ in range(60):
                at = rng.randrange(*rng.choice(((len(line),), (12,), (len(line) - 8, len(line) + 1))))
                put = bytes(rng.choice((0, 1, 2, 3, 5, 17, 127, 128, 200, 255)) for _ in range(rng.randint(0, 2)))
                bad = line[:at] + put + line[at + rng.randint(0, 2):]
                answer = office.judge(PROGRAM, bad, b"").refused_line
                if 0 < answer < w.FIRST_OF_TABLES:
                    self.assertEqual(len(file_findings(bad, answer)), 1, (bad, answer))
                    met[answer] += 1
        self.assertGreater(min(met.values()), 10, met)


if __name__ == "__main__":
    unittest.main()
