"""Demand 3 on drawn lists of booked calls of the reference, bends and slides among them, and that no contact pulls: the energies and the book after each
call, every residual and its limit, every contact."""

import unittest
from collections import Counter
from dataclasses import replace
from itertools import product

from drawn import Generator, drawn_change, drawn_forces, drawn_slide
from string_voice.bending import slide
from string_voice.book import Book
from string_voice.energy import bend_work, loss, rounding_limit, rounding_work, stored, within_limits, work
from string_voice.ranges import Refused
from voices import CONTACTS, Voice

ENOUGH = 20


class Sums:
    """The sums of a list of booked calls from a fresh start, which the voice has just made."""

    def __init__(self, voice):
        self.voice = voice
        self.start = self.stored
        self.work = self.loss = self.rounding = self.limit = self.steps = 0
        self.unforced = True

    @property
    def stored(self):
        """By the newest setup."""
        return stored(self.voice.setup, self.voice.state)

    def step(self, pluck, finger_force):
        stepped = self.voice.step_booked(pluck, finger_force)
        worked = stepped.workings[-1]
        self.work += work(worked)
        self.loss += loss(stepped.given, worked)
        self.rounding += rounding_work(worked)
        self.limit += rounding_limit(worked)
        self.steps += 1
        self.unforced &= pluck == finger_force == 0
        return stepped

    def change(self, operation, value):
        """A bend or a slide."""
        old = self.voice.setup
        self.voice.change_booked(operation, value)
        self.work += bend_work(old, self.voice.setup, self.voice.state)
        self.unforced &= operation is slide


def drawn_voices():
    for segments in (2, 3, 7, 24, 128):
        for seed in range(1, 5):
            yield Voice(Generator(1000 * seed + segments), segments)


def no_forces(_generator, _setup):
    return [0] * 128


class Energy(unittest.TestCase):
    def setUp(self):
        self.met = Counter()  # accepted calls, and lists that are lossless and unforced, by where the string was in contact; refusals

    def test_calls(self):
        """Steps with forces, bends and slides."""
        for voice in drawn_voices():
            self.play(voice, drawn_change, drawn_forces)
        self.check_met("step", "bend", "slide")
        self.assertEqual({number for name, number in self.met if name == "refused"}, {2, 3, 4, 12, 13, 14})

    def test_calls_without_loss_and_force(self):
        """Slides, and steps without a force, on setups without losses: until a contact variable is cleared there is none."""
        for voice in drawn_voices():
            voice.setup = replace(voice.setup, viscous=0, plain=0)
            self.play(voice, drawn_slide, no_forces)
        self.check_met("lossless and unforced", "slide")

    def check_met(self, *names):
        for met in product(names, CONTACTS):
            self.assertGreater(self.met[met], ENOUGH, met)

    def play(self, voice, drawn_change, drawn_forces):
        """Four parts of 64 frames, before each of them a bend or a slide; after 13 or 14 a fresh start and a new list."""
        sums = Sums(voice)
        for _ in range(4):
            forces = drawn_forces(voice.generator, voice.setup)
            for pair in zip(forces[::2], forces[1::2]):
                operation, value = drawn_change(voice.generator, voice.setup)
                self.call(sums, operation.__name__, sums.change, operation, value)
                if self.call(sums, "step", self.step, sums, *pair) > 12:
                    voice.start()
                    sums = Sums(voice)

    def call(self, sums, name, call, *arguments):
        """Makes a call and checks the list that it ends. Answers its refusal, 0 if it has none."""
        voice = sums.voice
        before, contacts = (voice.setup, voice.state, voice.book, vars(sums).copy()), voice.contacts
        refusal = 0
        try:
            call(*arguments)
            self.met.update((name, where) for where in contacts)
        except Refused as refused:
            refusal = refused.number
            self.assertEqual((voice.setup, voice.state, voice.book, vars(sums)), before)
            self.met["refused", refusal] += 1
        self.check(sums, contacts)
        return refusal

    def check(self, sums, contacts):
        """Demand 3, and the book, which has the same sums."""
        energy = sums.stored
        self.assertEqual(sums.voice.book, Book(energy, sums.work, sums.loss, sums.rounding, sums.steps))
        self.assertEqual(energy, sums.start + sums.work - sums.loss + sums.rounding)
        self.assertGreaterEqual(energy, 0)
        self.assertLessEqual(abs(sums.rounding), sums.limit)
        if sums.loss == 0 and sums.unforced:
            self.assertLessEqual(abs(energy - sums.start), sums.limit)
            self.met.update(("lossless and unforced", where) for where in contacts)

    def step(self, sums, pluck, finger_force):
        """A step; every residual is within its limit, nothing is gained by its loss, and no contact pulls."""
        stepped = sums.step(pluck, finger_force)
        worked, after = stepped.workings[-1], sums.voice.state
        self.assertGreaterEqual(loss(stepped.given, worked), 0)
        self.assertTrue(within_limits(worked))
        old, gradients = worked.state, worked.gradients
        contacts = [(gradients.finger, old.finger.contact, after.finger.contact), *zip(gradients.points, old.contact, after.contact)]
        self.assertTrue(all(slope * (psi + new) >= 0 for slope, psi, new in contacts))


if __name__ == "__main__":
    unittest.main()
