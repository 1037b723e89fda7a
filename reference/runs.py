"""Writes runs/stdout, into crates/ or a folder named: long runs on drawn setups, necks, fingers and forces, played by the reference.

A run is stretches of 256 frames, each of them four parts of 64: a block, single steps, a block, single steps; between single steps there are bends and
slides. The last stretches are single steps alone, from a fresh start on, and these steps and bends are booked. The checksum of a run takes in every refusal,
and after each part the turn, the book, the finger, all buffers and all samples. The steps must have made enough ties of every kind, and have cleared and
dropped enough contacts of every kind, there must be enough bends and slides with the string free, on the neck and under the finger, and enough of each must
be booked.
"""

import sys
from collections import Counter
from concurrent.futures import ProcessPoolExecutor
from fractions import Fraction
from itertools import pairwise
from math import floor

from calls import book_text, book_words, crates_folder, single_bits
from drawn import Generator, drawn_change, drawn_forces
from string_voice.energy import bend_work
from string_voice.playing import play_block
from string_voice.ranges import Refused
from voices import CONTACTS, Voice

RUNS = 48
STRETCHES = 21
UNBOOKED = 18  # the first stretches of a run
ENOUGH = 100
TIES = [("tie", where, above, even) for where in ("away from p", "at p", "of the finger") for above in (True, False) for even in (True, False)]
CLEARED = [("cleared", where) for where in ("at a point", "of the finger")]
DROPPED = [("dropped", where) for where in ("away from p", "at p, the string's", "at p, the finger's", "at p, both together")]
CHANGED = [(operation, where) for operation in ("bend", "slide") for where in CONTACTS]
BOOKED = [("booked", call, column, above) for call, column in (("step", "work"), ("step", "rounding"), ("bend", "work")) for above in (True, False)]
BOOKED += [("booked", kind) for kind in ("tie", "cleared", "dropped")]


def ties_of(worked):
    """The ties of a working: where each is, whether it is above 0, and whether the lower of its neighbours is the even one."""
    solutions = [("at p", worked.exact_at_p), ("of the finger", worked.exact_finger)]
    p = worked.setup.finger_place
    for place, (A, c) in enumerate(zip(worked.factors, worked.right_sides)):
        if place != p and 2 * c % A == 0:
            solutions.append(("away from p", Fraction(c, A)))
    return [("tie", where, exact > 0, floor(exact) % 2 == 0) for where, exact in solutions if exact.denominator == 2]


def cleared_in(given, worked):
    """The contact variables other than 0 that were cleared of the state passed in."""
    points = sum(before != after for before, after in zip(given.contact, worked.state.contact))
    of_finger = given.finger.contact != worked.state.finger.contact
    return [("cleared", "at a point")] * points + [("cleared", "of the finger")] * of_finger


def dropped_in(worked):
    """The contacts that were dropped between a step's workings. A third one does not come up here: cases has steps with it."""
    p = worked[0].setup.finger_place
    for before, after in pairwise(worked):
        points = {place for place, slopes in enumerate(zip(before.gradients.points, after.gradients.points)) if slopes[0] != slopes[1]}
        string, finger = p in points, before.gradients.finger != after.gradients.finger
        yield from [("dropped", "away from p")] * len(points - {p})
        if string or finger:
            yield "dropped", "at p, both together" if string and finger else "at p, the string's" if string else "at p, the finger's"


def kinds_of(stepped):
    """What is counted of a step."""
    worked = stepped.workings
    return [*ties_of(worked[-1]), *cleared_in(stepped.given, worked[0]), *dropped_in(worked)]


def booked_by(call, before, after):
    """The columns to which a call of this name added something, and whether that was above 0."""
    for column in ("work", "loss", "rounding"):
        old, new = getattr(before, column), getattr(after, column)
        if old != new:
            yield "booked", call, column, new > old


class Run:
    def __init__(self, seed, segments):
        self.seed = seed
        self.generator = Generator(seed)
        self.voice = Voice(self.generator, segments)
        self.samples = [0] * 128
        self.steps, self.refused, self.checksum, self.kinds = 0, dict.fromkeys((2, 3, 4, 12, 13, 14), 0), 0, Counter()
        self.booked = False  # whether steps and bends are

    def add(self, *words):
        """Takes words of 32 bits into the checksum."""
        for word in words:
            self.checksum = (self.checksum * 16_777_619 + word) % 4_294_967_291

    def count(self, refusal):
        """Counts a call that was refused with this number, or with none, 0."""
        self.add(refusal)
        if refusal:
            self.refused[refusal] += 1

    def call(self, operation, *arguments):
        """Makes a call, and counts it. Answers its refusal, 0 if it has none."""
        refusal = 0
        try:
            operation(*arguments)
        except Refused as refused:
            refusal = refused.number
        self.count(refusal)
        return refusal

    def change(self, operation, value):
        """A bend or a slide. A bend with work is counted, and a slide to another place, by where the string was in contact."""
        voice, old, book, contacts = self.voice, self.voice.setup, self.voice.book, self.voice.contacts
        (voice.change_booked if self.booked else voice.change)(operation, value)
        self.kinds.update(booked_by(operation.__name__, book, voice.book))
        if bend_work(old, voice.setup, voice.state) or voice.setup.finger_place != old.finger_place:
            self.kinds.update((operation.__name__, where) for where in contacts)

    def step(self, frame, forces):
        """One frame of 64."""
        voice, book = self.voice, self.voice.book
        stepped = (voice.step_booked if self.booked else voice.step)(*forces)
        kinds = kinds_of(stepped)
        self.kinds.update(kinds)
        if self.booked:
            self.kinds.update(booked_by("step", book, voice.book))
            self.kinds.update(("booked", kind) for kind, *_ in kinds)
        self.samples[2 * frame : 2 * frame + 2] = stepped.frame
        self.steps += 1

    def block(self, forces):
        """64 frames as one block. Answers its refusal, 0 if it has none."""
        played = play_block(*self.voice.lent, forces, self.samples)
        self.voice.turn, self.voice.finger = played.turn, played.finger
        self.steps += played.count
        for stepped in played.steps:
            self.kinds.update(kinds_of(stepped))
        self.count(played.refusal)
        return played.refusal

    def singles(self, forces):
        """64 frames as single steps, before about one of eight a bend or a slide; one that is refused does not end them. Answers the last step's refusal."""
        for frame in range(64):
            if self.generator.draw(8) == 0:
                self.call(self.change, *drawn_change(self.generator, self.voice.setup))
            refusal = self.call(self.step, frame, forces[2 * frame : 2 * frame + 2])
        return refusal

    def part(self, play):
        """64 frames. After 13 or 14 the voice starts anew."""
        voice = self.voice
        refusal = play(drawn_forces(self.generator, voice.setup))
        finger = voice.finger
        numbers = [finger.newer, finger.older, finger.contact, *voice.first, *voice.second, *voice.contact]
        self.add(voice.turn, *(half for word in book_words(voice.book) for half in divmod(word, 2**32)), voice.book.count)
        for x in numbers:
            self.add(int(x < 0), abs(x))
        self.add(*(int(single_bits(x), 16) for x in self.samples))
        if refusal > 12:
            voice.start()

    def line(self, stretch):
        """What a stretch came to."""
        voice, finger = self.voice, self.voice.finger
        return (
            f"run {self.seed} stretch {stretch} steps {self.steps} refused {' '.join(map(str, self.refused.values()))}"
            f" tension {voice.setup.tension} place {voice.setup.finger_place}"
            f" strings {sum(voice.first)} {sum(voice.second)} contact {sum(voice.contact)}"
            f" finger {finger.newer} {finger.older} {finger.contact} turn {voice.turn} {book_text(voice.book)}"
            f" samples {' '.join(map(single_bits, self.samples[126:]))} checksum {self.checksum:08x}"
        )


def played(number):
    """The lines of a run, and its kinds of ties, contacts, changes and bookings. The segments of the runs go evenly from 2 to 128."""
    run = Run(number + 1, 2 + number * 126 // (RUNS - 1))
    lines = []
    for stretch in range(STRETCHES):
        run.booked = stretch >= UNBOOKED
        if run.generator.draw(4) == 0 or stretch == UNBOOKED:
            run.voice.start()
        for play in [run.singles] * 4 if run.booked else [run.block, run.singles] * 2:
            run.part(play)
        lines.append(run.line(stretch))
    return lines, run.kinds


def main(crates):
    with ProcessPoolExecutor() as pool:
        runs = list(pool.map(played, range(RUNS)))
    kinds = sum((of_run for _, of_run in runs), Counter())
    for kind in [*TIES, *CLEARED, *DROPPED, *CHANGED, *BOOKED]:
        assert kinds[kind] >= ENOUGH, f"{kind}: {kinds[kind]}, and not {ENOUGH}"
    lines = [line for of_run, _ in runs for line in of_run]
    (crates / "runs" / "stdout").write_text("\n".join(lines) + "\n")


if __name__ == "__main__":
    main(crates_folder(sys.argv))
