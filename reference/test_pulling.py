"""02, item 3, on the reference: what is cleared, what is dropped, and what a refused step leaves."""

import unittest
from dataclasses import replace

from calls import stepped
from contact_cases import FINGER_FIRST, ONLY_THE_FINGER, ONLY_THE_STRING, STRING_FIRST, THREE_WORKINGS, judged, let_through, sums
from string_voice.moves import Finger, Gradients, gradients_of, next_state, work_out
from string_voice.pulling import cleared, kept, pulls, workings
from string_voice.ranges import CONTACT_VARIABLES, DISPLACEMENTS, Refused, all_in
from string_voice.step import state_of, step
from test_by_hand import BENCH


def given(height, u, v, w, older_w, psi, phi, stiffness, K, m, L, pluck=0):
    """What a step of one point and the finger is given."""
    setup = replace(BENCH, tension=L, finger_stiffness=K, finger_mass=m)
    return setup, [height], [stiffness], state_of([u], [v], [psi], 0, Finger(w, older_w, phi)), pluck, 0


def pair(gradients):
    """The gradient of the one point, and the finger's."""
    return gradients.points[1], gradients.finger


def dropped(case):
    """The gradients of each working of a case."""
    return [pair(worked.gradients) for worked in workings(*given(*case))]


def left_with(case, G, g):
    """What is left of these gradients when the case is worked out with them."""
    setup, heights, _, state, pluck, finger_force = given(*case)
    return pair(kept(work_out(setup, cleared(setup, heights, state), Gradients([0, G, 0], g), pluck, finger_force)))


class Clearing(unittest.TestCase):
    def test_points(self):
        for depth, stiffness, psi, G in ((-1, 65535, 0, 0), (0, 65535, 0, 0), (1, 1023, 70, 0), (1, 1024, 70, 8)):
            setup, heights, stiffnesses, state, *_ = given(-5, -5 - depth, -5, 0, 0, 70, 0, stiffness, 0, 4096, 1)
            self.assertEqual(cleared(setup, heights, state).contact, [0, psi, 0])
            self.assertEqual(gradients_of(setup, heights, stiffnesses, state).points[1], G)

    def test_finger(self):
        for depth, K, phi, g in ((-1, 65535, 0, 0), (0, 65535, 0, 0), (1, 1023, -70, 0), (1, 1024, -70, 8)):
            setup, heights, stiffnesses, state, *_ = given(-9, 5, 5, 5 - depth, 0, 0, -70, 0, K, 4096, 1)
            self.assertEqual(cleared(setup, heights, state).finger, Finger(5 - depth, 0, phi))
            self.assertEqual(gradients_of(setup, heights, stiffnesses, state).finger, g)

    def test_a_refused_step_clears_nothing(self):
        first, second, contact = [1_048_576], [0], [70]
        with self.assertRaises(Refused) as refused:
            step(replace(BENCH, tension=1), [0], [64], first, second, contact, 0, Finger(1_048_576, 1_048_576, -70), 0, 0)
        self.assertEqual(refused.exception.number, 13)
        self.assertEqual((first, second, contact), ([1_048_576], [0], [70]))

    def test_a_variable_that_would_be_cleared_is_examined(self):
        with self.assertRaises(Refused) as refused:
            step(BENCH, [0], [64], [1], [1], [67_108_865], 0, Finger(1, 1, 0), 0, 0)
        self.assertEqual(refused.exception.number, 11)


class Dropping(unittest.TestCase):
    def test_a_sum_of_zero_is_kept(self):
        """G is 11, the move 1 or 2, so that old and new variable sum to 2·ψ − 11·δ."""
        for psi, pluck, total, left in ((5, 4200, -1, 0), (6, 4200, 1, 11), (10, 8300, -2, 0), (11, 8300, 0, 11), (12, 8300, 2, 11)):
            worked = workings(*given(0, -16, -16, 0, 0, psi, 0, 128, 0, 4096, 1, pluck - 22 * psi))
            after = next_state(worked[0]).contact[1]
            self.assertEqual((psi + after, worked[-1].gradients.points[1]), (total, left))
            self.assertEqual(next_state(worked[-1]).contact[1], after if left else psi)

    def test_three_workings(self):
        self.assertEqual(dropped(THREE_WORKINGS), [(17, 42), (0, 42), (0, 0)])

    def test_together_and_not_one_by_one(self):
        self.assertEqual(dropped(ONLY_THE_STRING), [(255, 8), (0, 0)])
        self.assertEqual(left_with(ONLY_THE_STRING, 0, 8), (0, 8))
        self.assertEqual(dropped(ONLY_THE_FINGER), [(142, 81), (0, 0)])
        self.assertEqual(left_with(ONLY_THE_FINGER, 142, 0), (142, 0))

    def test_not_taken_up_again(self):
        """The contact that was dropped first would not pull once the other one is dropped too."""
        (G, g), *after = dropped(STRING_FIRST)
        self.assertEqual(after, [(0, g), (0, 0)])
        self.assertEqual(left_with(STRING_FIRST, G, 0), (G, 0))
        (G, g), *after = dropped(FINGER_FIRST)
        self.assertEqual(after, [(G, 0), (0, 0)])
        self.assertEqual(left_with(FINGER_FIRST, 0, g), (0, g))

    def test_a_dropped_contact_keeps_its_variable(self):
        for case in (THREE_WORKINGS, ONLY_THE_FINGER):
            after = next_state(workings(*given(*case))[-1])
            self.assertEqual((after.contact[1], after.finger.contact), case[5:7])

    def test_pulls(self):
        self.assertEqual([pulls(8, 3, new) for new in (-4, -3, -2)], [True, False, False])
        self.assertFalse(pulls(0, -3, -3))


def in_range(worked):
    """Whether neither 13 nor 14 would be given for the moves of a working."""
    new = next_state(worked)
    return all_in([*new.newer, new.finger.newer], DISPLACEMENTS) and all_in([*new.contact, new.finger.contact], CONTACT_VARIABLES)


class Cases(unittest.TestCase):
    """That calls of contact_cases.py are what they say."""

    def test_sums(self):
        found = []
        for call in sums():
            first = stepped(call).workings[0]
            old, new = first.state, next_state(first)
            found.append(sum(old.contact) + sum(new.contact) + old.finger.contact + new.finger.contact)
        self.assertEqual(found, [total for total in (-1, 1, -2, 0, 2) for _ in range(3)])

    def test_first_moves_out_of_range(self):
        for call in let_through():
            first, last = stepped(call).workings
            self.assertEqual((in_range(first), in_range(last)), (False, True))

    def test_first_moves_in_range(self):
        boundary = [call for number, call in judged() if number == 0][3:]
        for call in boundary:
            first, last = stepped(call).workings
            self.assertEqual((in_range(first), in_range(last)), (True, True))
        self.assertEqual(len(boundary), 3)


if __name__ == "__main__":
    unittest.main()
