"""Every line of 01's 'Checked by hand', starred and unstarred, on the reference, as 02's item 2 reads them; item 3 leaves them as they are."""

import unittest
from dataclasses import replace

from string_voice.energy import rounding_work, stored, work
from string_voice.moves import Finger, next_state
from string_voice.pulling import workings
from string_voice.ranges import Refused
from string_voice.setup import Setup, check_setup
from string_voice.step import fresh_start, state_of, step

BENCH = Setup(
    segments=2,
    tension=4096,
    stiffness=0,
    viscous=0,
    plain=0,
    finger_stiffness=0,
    finger_mass=4096,
    finger_place=1,
    pluck_place=1,
    bridge_place=1,
    neck_place=1,
)
NO_NECK = ([0], [0])


def displacements(plucks):
    """The string's one point after each step of the bench voice from a fresh start, with these plucks and no finger force."""
    first, second, contact = [9], [9], [9]
    turn, finger, _ = fresh_start(BENCH, first, second, contact, 0, 0)
    after = []
    for pluck in plucks:
        stepped = step(BENCH, *NO_NECK, first, second, contact, turn, finger, pluck, 0)
        turn, finger = stepped.turn, stepped.finger
        after.append((first, second)[turn][0])
    return after


def first_pluck(pluck):
    """The first step of the bench voice, worked out."""
    return workings(BENCH, *NO_NECK, state_of([0], [0], [0], 0, Finger(0, 0, 0)), pluck, 0)[-1]


def refusal(**changes):
    """What the bench voice's setup is refused for with these changes; 0 if it is accepted."""
    try:
        check_setup(replace(BENCH, **changes))
    except Refused as refused:
        return refused.number
    return 0


class CheckedByHand(unittest.TestCase):
    def test_pluck_then_no_force(self):
        self.assertEqual(displacements([4096, 0, 0, 0]), [1, 0, -1, 0])
        self.assertEqual(stored(BENCH, next_state(first_pluck(4096))), 8192)

    def test_first_plucks(self):
        for pluck, displacement in ((2048, 0), (2047, 0), (-2048, 0), (-2049, -1)):
            self.assertEqual(displacements([pluck]), [displacement])

    def test_energies_of_a_tie(self):
        worked = first_pluck(2048)
        self.assertEqual((work(worked), rounding_work(worked), stored(BENCH, next_state(worked))), (0, 0, 0))

    def test_pressed_string(self):
        setup = replace(BENCH, tension=1)
        state = state_of([-16], [-16], [1000], 0, Finger(0, 0, 0))
        worked = workings(setup, [0], [64], state, 0, 0)[-1]
        after = next_state(worked)
        self.assertEqual((worked.gradients.points[1], worked.moves[1], after.contact[1]), (8, 4, 968))
        self.assertEqual((stored(setup, state), stored(setup, after)), (2_001_024, 2_005_888))
        self.assertEqual(workings(setup, [0], [63], state, 0, 0)[-1].gradients.points[1], 0)

    def test_pressing_finger(self):
        setup = replace(BENCH, tension=1, finger_stiffness=64)
        state = state_of([16], [16], [0], 0, Finger(newer=0, older=8, contact=0))
        worked = workings(setup, [0], [0], state, 0, 0)[-1]
        after = next_state(worked)
        self.assertEqual((worked.gradients.finger, worked.moves[1], worked.finger_move), (8, 0, -16))
        self.assertEqual(after.finger.contact, 128)
        self.assertEqual((stored(setup, state), stored(setup, after)), (525_312, 558_080))

    def test_setups(self):
        self.assertEqual(refusal(tension=4092, stiffness=1), 0)
        self.assertEqual(refusal(tension=4093, stiffness=1), 3)
        self.assertEqual(refusal(tension=2048, viscous=1024), 0)
        self.assertEqual(refusal(tension=4097), 2)
        self.assertEqual(refusal(tension=4096, viscous=1), 3)


if __name__ == "__main__":
    unittest.main()
