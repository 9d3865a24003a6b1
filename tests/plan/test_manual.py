"""docs/PLANNER.md is true: its tables are put down, its commands typed as written, and they print what it shows.

A line with nothing but a file's name in backquotes and a `csv` block below it is a table; a `console` block is
commands after `$ `, each with its output, and `console status=1` says how the last of them ends. There are no other
blocks, so that no command stands there untried.
"""
import os
import re
import shutil
import signal
import subprocess
import unittest
from pathlib import Path

from common import PROGRAM, ROOT, InFolder
from libraries import missing
from planner import pack
from planner import wording as w
from planner.area import SMALL_ROOM, WIDE_ROOM, WRAPPING, length_for
from planner.judged import judge_folder
from planner.visit import Item, Move

MANUAL = ROOT / "docs" / "PLANNER.md"
FENCE = re.compile(r"^```(?P<kind>[^\n]*)\n(?P<body>.*?)^```$", re.DOTALL | re.MULTILINE)
FILE = re.compile(r"`([^`\n]+)`\n\n\Z")
CONSOLE = re.compile(r"console(?: status=(\d+))?")
GREEN_UP = "create green,,1,\nactivate,Sorting control,1,\nactivate,Scanner,1,\nactivate,,1,Barcode table\n"
UP = "create,,1,\nactivate,Sorting control,1,\nactivate,Scanner,1,\nactivate,,1,Barcode table; Parcel counter\n"
SCAN = "write,Sorting control,,Scanner ring = Scan parcels\nwrite,Scanner,,Barcode table = text A\n"
# A rule as the page words it, a visit that runs into it, and the answers.
RULES = (
    ("It begins with nothing in use", "activate,Scale,1,\ncreate,,1,\nwrite,Scale,,#9 = text A\n", [14, 0, 16]),
    ("A refused move changes nothing and is passed over", "create,,1,\ndestroy,,2,\ncreate,,2,\n", [0, 14, 0]),
    ("the number is gone for good", "create,,1,\ndestroy,,1,\ncreate,,1,\ncreate,,2,\n", [0, 0, 14, 0]),
    ("Only an empty partition can be\n  destroyed", UP + "destroy,,1,\n", [0, 0, 0, 0, 15]),
    ("So it is with green zones", GREEN_UP + "destroy,,1,\ncreate,,1,\n" + "create green,,2,\ndestroy,,2,\n" * 2,
     [0] * 4 + [15, 14, 0, 0, 14, 14]),
    ("values that name things of this zone, none hard-wired, and that write\n  no transfer descriptor",
     GREEN_UP + "write,Sorting control,,Job queue = Scan parcels\nwrite,Sorting control,,Job queue = Scan and queue\n"
     "activate,,1,Parcel counter\nwrite,Sorting control,,Job queue = Scan parcels\n", [0] * 4 + [22, 22, 0, 0]),
    ("What leaves a green zone may not be named by any\n  descriptor that stays there, read by a card or not",
     GREEN_UP + "activate,,1,Parcel counter\nwrite,Sorting control,,Job queue = Scan parcels\n"
     "deactivate,,1,Barcode table\ndeactivate,Scanner,,\ndeactivate,Sorting control,,\ndeactivate,,1,Barcode table\n",
     [0] * 6 + [20, 0, 0, 0]),
    ("Activating clears", UP + SCAN + "deactivate,Scanner,,\nactivate,Scanner,1,\n" + SCAN.splitlines()[1] + "\n",
     [0] * 8 + [18]),
    ("What is activated must be in no partition", UP + "create,,2,\nactivate,Scanner,2,\n", [0] * 5 + [16]),
    ("A card that is locked does not come in until it is unlocked", "create,,1,\nlock,Scale,,\nactivate,Scale,1,\n"
     "activate,Scale,2,\ncreate,,2,\nunlock,Scale,,\nactivate,Scale,1,\n", [0, 0, 23, 14, 0, 0, 0]),
    ("It is locked and unlocked in no partition alone; a second\n  lock on it is refused, and so is an unlock without "
     "one", UP + "lock,Scanner,,\nunlock,Scanner,,\nlock,Scale,,\nlock,Scale,,\nunlock,Scale,,\nunlock,Scale,,\n",
     [0] * 4 + [16, 16, 0, 23, 0, 23]),
    ("What acts or is deactivated must be in one", "deactivate,Scanner,,\nread,Scanner,,Scanner ring\n", [16, 16]),
    ("Only external objects are activated and deactivated by themselves", UP + "activate,,1,Lane table\n",
     [0] * 4 + [13]),
    ("A hard-wired descriptor is never written, read or moved", UP + "read,Scanner,,Scanner wiring\n", [0] * 4 + [13]),
    ("it may be read more than once", UP + "read,Sorting control,,Lane table; Lane table\n"
     "read,Sorting control,,Lane table -> Parcel counter; Barcode table -> Parcel counter\n", [0] * 5 + [12]),
)


class Manual(InFolder):
    def setUp(self):
        super().setUp()
        Path("tools").symlink_to(ROOT / "tools")
        shutil.copytree(ROOT / "examples" / "today", "examples/today")
        self.text = MANUAL.read_text(encoding="utf-8")

    def run_watch(self, line):
        """What a watch prints till its first words on Ctrl-C, and once it gets one."""
        tool = subprocess.Popen(["bash", "-c", f"exec {line}"], stdout=subprocess.PIPE, stderr=subprocess.STDOUT,
                                text=True, env={**os.environ, "KOLLUWAR_OFFICE": str(PROGRAM)},
                                preexec_fn=lambda: signal.signal(signal.SIGINT, signal.SIG_DFL))
        printed = ""
        while "Ctrl-C ends it" not in printed:
            row = tool.stdout.readline()
            self.assertTrue(row, printed)
            printed += row
        tool.send_signal(signal.SIGINT)
        return printed + tool.communicate(timeout=60)[0], tool.returncode

    def run_command(self, line):
        """What a line of the shell prints, complaints too, and its status."""
        if line.startswith("tools/plan watch"):
            return self.run_watch(line)
        done = subprocess.run(["bash", "-c", line], stdout=subprocess.PIPE, stderr=subprocess.STDOUT, text=True,
                              timeout=60, env={**os.environ, "KOLLUWAR_OFFICE": str(PROGRAM)})
        return done.stdout, done.returncode

    def typed(self, body, status):
        """The block as it comes out when its commands are typed; all but the last must end with 0."""
        lines = re.findall(r"^\$ (.*)\n", body, re.MULTILINE)
        made = ""
        if missing() and "tools/plan workbook" in body:
            self.commands += len(lines)
            return body
        for place, line in enumerate(lines, 1):
            printed, ended = self.run_command(line)
            self.assertEqual(ended, status if place == len(lines) else 0, f"'{line}' ends otherwise")
            self.commands += 1
            made += f"$ {line}\n{printed}"
        return made

    def test_what_it_shows(self):
        self.commands, parts, end = 0, [], 0
        for block in FENCE.finditer(self.text):
            console, file = CONSOLE.fullmatch(block["kind"]), FILE.search(self.text[:block.start()])
            if console:
                parts += [self.text[end:block.start("body")], self.typed(block["body"], int(console[1] or 0))]
                end = block.end("body")
                continue
            self.assertTrue(file and block["kind"] == "csv", f"nobody knows what this block is: {block[0]}")
            Path(file[1]).write_text(block["body"], encoding="utf-8")
        self.assertEqual(self.commands, len(re.findall(r"^ *\$ ", self.text, re.MULTILINE)))
        self.assertGreater(self.commands, 7)
        real = "".join(parts) + self.text[end:]
        self.same_as_stored(MANUAL, real.encode(), "docs/PLANNER.md shows other output")

    def test_no_command_is_left_out(self):
        """Every command of the help is typed on the page, and no line is set as one without being one."""
        helped, _ = self.run_command("tools/plan --help")
        for name in re.findall(r"^    (\w+) ", helped, re.MULTILINE):
            self.assertRegex(self.text, rf"(?m)^\$ tools/plan {name} ")
        untried = r"(?m)^(?: {4,}|\t)\S*(?:tools/plan|tools/rewrite|\./judge).*"
        self.assertEqual(re.findall(untried, FENCE.sub("", self.text)), [])

    def test_statuses_are_those_of_the_help(self):
        helped, _ = self.run_command("tools/plan --help")
        rows = re.findall(r"^\| (\d+) \| ", self.text, re.MULTILINE)
        self.assertEqual(rows, re.findall(r"^  (\d+)  ", helped, re.MULTILINE))

    def test_limits(self):
        """The table of limits is the tool's, and how many moves fit is what a visit of them takes."""
        rows = re.findall(r"^\| ([a-z][^|]*) \| ([\d,]+) \|$", self.text, re.MULTILINE)
        names = {"drivers": "drivers", "cards": "cards", "objects": "objects", "values": "values",
                 "entries of a value": "entries of a value", "partitions, by number": "partitions",
                 "items, pairs or objects in one move": "items of a move", "a card's serial": "a number",
                 "bytes of `session.bin`": "bytes of session.bin"}
        wanted = {name: w.LIMITS[limit] for name, limit in names.items()}
        wanted["bytes of what an object holds"] = w.CONTENT_BYTES
        self.assertEqual({name: int(most.replace(",", "")) for name, most in rows}, wanted)
        told = {"bytes of line.bin", "objects of a small line"}
        self.assertEqual(set(w.LIMITS) - set(names.values()), told)
        self.assertIn(f"`long` if the file has more than {w.LIMITS['bytes of line.bin']:,} bytes", self.text)
        most = w.LIMITS["items of a move"]
        short, long = (len(pack.session_bytes([move])) for move in (
            Move(2, 5, where=1), Move(2, 1, 1, what=(Item(w.LIMITS["objects"], w.RAW_FORM),) * most)))
        room = w.LIMITS["bytes of session.bin"]
        self.assertIn(f"A move of named things takes {short} to {long} bytes of `session.bin`:\n{room // long} moves "
                      f"always fit, and {room // short:,} of the shortest.", self.text)

    def test_state_areas(self):
        """How long a state area is, of which lines, is what `start` takes."""
        small, wide = (length_for(records) for records in (SMALL_ROOM, WIDE_ROOM))
        text = " ".join(self.text.split())
        self.assertIn(f"an area of {small:,} bytes, and of {wide:,} where the line has more than {SMALL_ROOM} objects",
                      text)
        self.assertIn(f"{WRAPPING} bytes more", text)

    def test_rules(self):
        """Each rule stands on the page, and the program keeps it."""
        for words, visit, answers in RULES:
            self.assertIn(words, self.text)
            (self.visit / "visit.csv").write_text("operation,who,where,what\n" + visit, encoding="utf-8")
            self.assertEqual(list(judge_folder(PROGRAM, self.visit).verdict.answers), answers, words)

    def test_rows_and_moves(self):
        """What the page says of both numbers: a move's is the place that ./judge prints, blank rows left out."""
        self.edit("visit.csv", "create,,Test bench", ",,,,\ncreate,,Test bench")
        text, _ = self.run_command("tools/plan check examples/visit")
        moves = re.findall(r"^row +(\d+) \(move +(\d+)\)  (?:accepted|refused (\d+)) ", text, re.MULTILINE)
        places = subprocess.run([ROOT / "judge", "examples/visit"], capture_output=True, text=True).stdout
        self.assertEqual([f"{move} {answer or 0}" for _, move, answer in moves], places.splitlines())
        self.assertEqual([int(row) for row, _, _ in moves], [2, *range(4, 25)])


if __name__ == "__main__":
    unittest.main()
