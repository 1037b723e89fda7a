"""02, item 5, on the reference: what a bend and a slide answer and refuse, and the work of a bend by hand."""

import unittest
from dataclasses import replace

from string_voice.bending import bend, slide
from string_voice.differences import e
from string_voice.energy import bend_work, stored
from string_voice.moves import Finger
from string_voice.ranges import Refused
from string_voice.step import state_of
from test_by_hand import BENCH

U32 = 4_294_967_295
LONGER = replace(BENCH, segments=4, tension=1000)


class Bending(unittest.TestCase):
    def test_nothing_else_changes(self):
        self.assertEqual(bend(LONGER, 1200), replace(LONGER, tension=1200))
        self.assertEqual(slide(LONGER, 3), replace(LONGER, finger_place=3))

    def test_the_new_value_is_examined(self):
        stiff = replace(LONGER, stiffness=1)
        for operation, setup, value, number in (
            *((bend, LONGER, tension, 2) for tension in (0, 4097, U32)),
            (bend, stiff, 4093, 3),
            *((slide, LONGER, place, 4) for place in (0, 4, U32)),
        ):
            with self.assertRaises(Refused) as refused:
                operation(setup, value)
            self.assertEqual(refused.exception.number, number)
        self.assertEqual(bend(stiff, 4092).tension, 4092)

    def test_the_old_value_is_not_examined(self):
        for tension in (0, 4097, U32):
            self.assertEqual(bend(replace(LONGER, tension=tension), 1000), LONGER)
        for place in (0, 4, U32):
            self.assertEqual(slide(replace(LONGER, finger_place=place), 1), LONGER)

    def test_work_of_a_bend(self):
        """One point at 3, before at 5: the rises are 3 and −3, 5 and −5, and E(u, v) = 30. From 100 to 300 the work is 2 · 200 · 30."""
        state = state_of([3], [5], [0], 0, Finger(0, 0, 0))
        self.assertEqual(e(state.newer, state.older), 30)
        loose = replace(BENCH, tension=100)
        tight = bend(loose, 300)
        self.assertEqual(bend_work(loose, tight, state), 12_000)
        self.assertEqual(bend_work(tight, loose, state), -12_000)
        # 8192 · (3 − 5)² and twice the tension times E
        self.assertEqual((stored(loose, state), stored(tight, state)), (32_768 + 6000, 32_768 + 18_000))

    def test_a_slide_stores_what_was_stored(self):
        state = state_of([3, 4, 5], [5, 4, -3], [7, 0, 0], 1, Finger(2, 1, 9))
        self.assertEqual(bend_work(LONGER, slide(LONGER, 3), state), 0)
        self.assertEqual(stored(slide(LONGER, 3), state), stored(LONGER, state))


if __name__ == "__main__":
    unittest.main()
