"""02, item 6, on the reference: a book's words, booked calls by hand, and what they refuse; drawn lists of booked calls are in test_energy.py."""

import unittest
from copy import deepcopy
from dataclasses import replace

from book_cases import at_columns, largest_bends, largest_steps
from calls import answer
from string_voice.bending import slide
from string_voice.book import LARGEST_COUNT, Book, column_of, words
from string_voice.booking import bend_booked, step_booked
from string_voice.moves import Finger
from string_voice.ranges import Refused
from string_voice.step import fresh_start
from test_by_hand import BENCH

ONES = 2**64 - 1
END = 2**120


class Voice:
    """The bench voice at rest, with an empty book, and with changes to any of this."""

    def __init__(self, **changes):
        self.setup, self.turn, self.finger, self.book = BENCH, 0, Finger(0, 0, 0), Book(0, 0, 0, 0, 0)
        self.heights, self.stiffness, self.first, self.second, self.contact = [0], [0], [0], [0], [0]
        vars(self).update(changes)

    def step(self, pluck=0, finger_force=0):
        strings = self.first, self.second, self.contact
        stepped, self.book = step_booked(
            self.setup, self.heights, self.stiffness, *strings, self.turn, self.finger, pluck, finger_force, self.book
        )
        self.turn, self.finger = stepped.turn, stepped.finger
        return self.book

    def bend(self, tension):
        self.setup, self.book = bend_booked(self.setup, tension, self.first, self.second, self.contact, self.turn, self.finger, self.book)
        return self.book

    def slide(self, place):
        self.setup = slide(self.setup, place)
        return self.book


class Words(unittest.TestCase):
    def test_words(self):
        for column, high, low in (
            (0, 0, 0),
            (ONES, 0, ONES),
            (2**64, 1, 0),
            (END, 2**56, 0),
            (2**127 - 1, 2**63 - 1, ONES),
            (-1, ONES, ONES),
            (-(2**64), ONES, 0),
            (-(2**64) - 1, ONES - 1, ONES),
            (-END, 2**64 - 2**56, 0),
            (-END - 1, 2**64 - 2**56 - 1, ONES),
            (-(2**127), 2**63, 0),
        ):
            self.assertEqual(words(column), (high, low))
            self.assertEqual(column_of(high, low), column)


class Refusing(unittest.TestCase):
    """A test that calls are refused with a number and leave everything."""

    def check_refused(self, number, voice, call, *arguments):
        before = deepcopy(vars(voice))
        with self.assertRaises(Refused) as refused:
            call(*arguments)
        self.assertEqual(refused.exception.number, number)
        self.assertEqual(vars(voice), before)


class ByHand(Refusing):
    def test_fresh_start(self):
        """2 · 4096 · 11²."""
        self.assertEqual(fresh_start(BENCH, [7], [8], [9], 5, -6)[2], Book(991_232, 0, 0, 0, 0))

    def test_first_plucks(self):
        """The string moves by 1 or −1, and the residual is that move times 4096, less the pluck; at 2048 it does not move."""
        for pluck, book in (
            (4096, Book(8192, 8192, 0, 0, 1)),
            (2048, Book(0, 0, 0, 0, 1)),
            (3000, Book(8192, 6000, 0, 2192, 1)),
            (5000, Book(8192, 10_000, 0, -1808, 1)),
            (-3000, Book(8192, 6000, 0, 2192, 1)),
        ):
            self.assertEqual(Voice().step(pluck), book)

    def test_list(self):
        """With tension 2000 the string moves by 4192 / 4096 and stores 2 · 2000 · E(u, v), where E(u, v) is 2; a bend to 3000 adds 2 · 1000 · 2."""
        voice = Voice()
        self.assertEqual(voice.step(4096), Book(8192, 8192, 0, 0, 1))
        self.assertEqual(voice.bend(2000), Book(8192, 8192, 0, 0, 1))
        self.assertEqual(voice.step(), Book(8000, 8192, 0, -192, 2))
        self.assertEqual(voice.slide(1), Book(8000, 8192, 0, -192, 2))
        self.check_refused(2, voice, voice.bend, 4097)
        self.check_refused(4, voice, voice.slide, 2)
        self.check_refused(12, voice, voice.step, 1_073_741_825)
        self.assertEqual(voice.bend(3000), Book(12_000, 12_192, 0, -192, 2))

    def test_loss(self):
        """A is 6000, c is 8000 and the move 1: 2 · 1904 are lost, and 2 · 30² and 2 · 40² with variables that are cleared, of the point and of the finger."""
        setup = replace(BENCH, tension=96, plain=1904)
        self.assertEqual(Voice(setup=setup, first=[1]).step(), Book(384, 0, 3808, -4000, 1))
        cleared = Voice(setup=setup, first=[1], contact=[30], finger=Finger(1, 1, -40))
        self.assertEqual(cleared.step(), Book(384, 0, 3808 + 1800 + 3200, -4000, 1))

    def test_forces_of_the_finger(self):
        """It moves by 3, away from the string: the residual is 3 · 4096 − 12,000."""
        self.assertEqual(Voice().step(0, 12_000), Book(2 * 4096 * 9, 72_000, 0, 2 * 288 * 3, 1))


# what is wrong, in the order of the refusals; where two are at odds, the earlier one stands
OUTSIDE = Book(0, 0, 0, -END - 1, LARGEST_COUNT)
STEP_FAULTS = [
    (1, {"setup": replace(BENCH, segments=1)}),
    (6, {"stiffness": []}),
    (7, {"heights": [1]}),
    (11, {"contact": [67_108_865]}),
    (12, {"given": 1_073_741_825}),
    (16, {"book": OUTSIDE}),
    (17, {"book": replace(OUTSIDE, count=0)}),
    (13, {"second": [-1_048_576], "given": 4096}),
]
BEND_FAULTS = [
    (2, {"given": 4097}),
    (6, {"second": [0, 0]}),
    (11, {"finger": Finger(0, 0, -67_108_865)}),
    (17, {"book": OUTSIDE}),
]


class Refusals(Refusing):
    def check_order(self, faults, call):
        """All faults at once, and then less and less of them."""
        for start, (number, _) in enumerate(faults):
            wrong = {"given": 1}
            for _, fault in reversed(faults[start:]):
                wrong |= fault
            given, voice = wrong.pop("given"), Voice(**wrong)
            self.check_refused(number, voice, call, voice, given)

    def test_order(self):
        self.check_order(STEP_FAULTS, Voice.step)
        self.check_order(BEND_FAULTS, Voice.bend)

    def test_a_bend_counts_no_step(self):
        at_end = replace(OUTSIDE, rounding=-END)
        self.assertEqual(Voice(book=at_end).bend(1), at_end)

    def test_columns(self):
        """The ends are in, and what is booked may lead beyond them; the stored energy is worked out from the state."""
        for column in ("stored", "work", "loss", "rounding"):
            for outside in (END + 1, -END - 1):
                voice = Voice(book=replace(Book(0, 0, 0, 0, 0), **{column: outside}))
                self.check_refused(17, voice, voice.step)
                self.check_refused(17, voice, voice.bend, 1)
        above, below = Book(END, END, END, END, 7), Book(-END, -END, -END, -END, LARGEST_COUNT - 1)
        self.assertEqual(Voice(book=above).step(3000), Book(8192, END + 6000, END, END + 2192, 8))
        self.assertEqual(Voice(book=below).step(5000), Book(8192, -END + 10_000, -END, -END - 1808, LARGEST_COUNT))
        self.assertEqual(Voice(book=above, first=[1], second=[-1]).bend(4095), Book(4 * 8192 - 2 * 4095 * 2, END + 4, END, END, 7))
        self.assertEqual(Voice(book=below, first=[1], second=[1]).bend(4095), Book(2 * 4095 * 2, -END - 4, -END, -END, LARGEST_COUNT - 1))


def booked_after(call):
    """The book that a call of cases answers, read from the line."""
    answered = answer(call).split()
    start = answered.index("book") + 1
    bits = [int(word, 16) for word in answered[start : start + 8]]
    return Book(*map(column_of, bits[::2], bits[1::2]), int(answered[start + 8]))


class Cases(unittest.TestCase):
    """That calls of book_cases.py are what they say."""

    def test_columns(self):
        """Every column that is added to passes each end that it can, and its high word goes up and down; a loss only goes up."""
        beyond, carried = set(), set()
        for call in at_columns():
            before, after = Book(*call.arguments["book"]), booked_after(call)
            for name in ("work", "loss", "rounding"):
                old, new = getattr(before, name), getattr(after, name)
                if abs(old) <= END < abs(new):
                    beyond.add((call.operation, name, new > 0))
                if words(old)[0] != words(new)[0]:
                    carried.add((call.operation, name, new > old))
        moved = {("step_booked", "work"), ("step_booked", "rounding"), ("bend_booked", "work")}
        expected = {(*column, up) for column in moved for up in (True, False)} | {("step_booked", "loss", True)}
        self.assertEqual((beyond, carried), (expected, expected))

    def test_largest(self):
        """Stored energies of 64 bits, works of 82 bits and of either sign, and a loss of 61 bits, which carries."""
        bent = [booked_after(call) for call in largest_bends()]
        self.assertTrue(all(2**63 < book.stored < 2**64 for book in bent))
        self.assertEqual({(abs(book.work).bit_length(), book.work > 0) for book in bent}, {(82, True), (82, False)})
        self.assertGreater(max(booked_after(call).loss for call in largest_steps()), 2**64 + 2**60)


if __name__ == "__main__":
    unittest.main()
