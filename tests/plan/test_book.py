"""The book follows accepted moves as document 01 says: stores, copies, activation, deactivation, partitions."""
import unittest

from planner import wording as w
from planner.area import area_bytes, read_area
from planner.book import follow, fresh
from planner.config import Config, Device, Entry, Object, Value
from planner.visit import Item, Move, Pair

RAW = bytes(range(1, 17))
CONFIG = Config(
    drivers={1: "D1"}, devices={1: Device("C1", 1)},
    values={1: Value("V1", (Entry(2, w.READ, 0),)), 2: Value("V2", ())},
    objects={1: Object("O1", w.HARDCODED, w.DEVICE, 1), 2: Object("O2", w.TRANSFER, w.DEVICE, 1),
             3: Object("O3", w.DATA, w.DEVICE, 1), 4: Object("O4", w.DATA, w.DRIVER, 1),
             5: Object("O5", w.DATA, w.EXTERNAL, 0)})


def after(*moves):
    state = fresh(CONFIG)
    for row, move in enumerate(moves, 2):
        state = follow(CONFIG, state, Move(row, *move))
    return state


ENTER = [(5, 0, 1, ()), (7, 1, 1, ()), (8, 1, 1, ()), (9, 0, 1, (5,))]
FILL = (1, 1, 0, (Item(2, w.VALUE_FORM, 2), Item(3, w.RAW_FORM, raw=RAW), Item(5, w.RAW_FORM, raw=RAW[::-1])))


class Book(unittest.TestCase):
    def test_fresh(self):
        state = after()
        self.assertEqual(state.contents, {1: 1, 2: 0, 3: bytes(16), 4: bytes(16), 5: bytes(16)})
        self.assertEqual((set(state.objects.values()), state.drivers, state.devices), ({0}, {1: 0}, {1: 0}))

    def test_activation_moves_what_is_owned(self):
        self.assertEqual(after(*ENTER[:2]).objects, {1: 0, 2: 0, 3: 0, 4: 1, 5: 0})
        self.assertEqual(after(*ENTER[:3]).objects, {1: 1, 2: 1, 3: 1, 4: 1, 5: 0})
        self.assertEqual(after(*ENTER).objects, dict.fromkeys(range(1, 6), 1))

    def test_write(self):
        self.assertEqual(after(*ENTER, FILL).contents, {1: 1, 2: 2, 3: RAW, 4: bytes(16), 5: RAW[::-1]})

    def test_all_sources_are_read_first(self):
        copied = after(*ENTER, FILL, (3, 1, 0, (Pair(3, 5), Pair(5, 4), Pair(5, 0)))).contents
        self.assertEqual((copied[3], copied[4], copied[5]), (RAW, RAW[::-1], RAW))

    def test_deactivation_keeps_contents_and_activation_clears_them(self):
        left = after(*ENTER, FILL, (11, 1, 0, ()), (12, 0, 1, (5,)))
        self.assertEqual((left.devices, left.objects), ({1: 0}, {1: 0, 2: 0, 3: 0, 4: 1, 5: 0}))
        self.assertEqual(left.contents, after(*ENTER, FILL).contents)
        back = after(*ENTER, FILL, (11, 1, 0, ()), (12, 0, 1, (5,)), (8, 1, 1, ()), (9, 0, 1, (5,)))
        self.assertEqual(back.contents, fresh(CONFIG).contents)
        self.assertEqual(after(*ENTER, (10, 1, 0, ())).drivers, {1: 0})

    def test_partitions(self):
        state = after((5, 0, 7, ()), (5, 0, 8, ()), (6, 0, 7, ()))
        self.assertEqual((state.existing(), state.created, state.destroyed),
                         ([8], {7: "row 2", 8: "row 3"}, {7: "row 4"}))

    def test_green_zones(self):
        """They exist like others, have a standing of their own, and are none any more once they are destroyed."""
        state = after((13, 0, 7, ()), (5, 0, 8, ()), (13, 0, 9, ()), (6, 0, 9, ()))
        self.assertEqual((state.existing(), state.created), ([7, 8], {7: "row 2", 8: "row 3", 9: "row 4"}))
        self.assertEqual([state.is_green(p) for p in range(7, 11)], [True, False, False, False])
        self.assertEqual(list(area_bytes(CONFIG, state)[6:11]), [0, 3, 1, 2, 0])
        self.assertEqual(read_area(CONFIG, area_bytes(CONFIG, state)).green.keys(), {7})

    def test_the_state_before_is_left_alone(self):
        state = after(*ENTER)
        follow(CONFIG, state, Move(9, *FILL))
        self.assertEqual(state.contents, fresh(CONFIG).contents)
        follow(CONFIG, state, Move(9, 13, 0, 2))
        self.assertFalse(state.green)


if __name__ == "__main__":
    unittest.main()
