"""A voice on a drawn setup and a neck laid for it, and what it is lent from call to call: for runs."""

from drawn import drawn_heights, drawn_neck, drawn_setup
from string_voice.bending import slide
from string_voice.booking import bend_booked, step_booked
from string_voice.neck import lay_neck
from string_voice.setup import check_setup
from string_voice.step import fresh_start, state_of, step

FREE, ON_NECK, UNDER_FINGER = "free", "on the neck", "under the finger"
CONTACTS = (FREE, ON_NECK, UNDER_FINGER)


class Voice:
    def __init__(self, generator, segments):
        self.generator = generator
        self.setup = drawn_setup(generator, segments)
        check_setup(self.setup)
        points = segments - 1
        self.heights, self.stiffness = [0] * points, [0] * points
        lay_neck(self.setup, *drawn_neck(generator, segments), self.heights, self.stiffness)
        self.first, self.second, self.contact = [0] * points, [0] * points, [0] * points
        self.start()

    def start(self):
        """Starts anew, with a drawn finger."""
        self.turn, self.finger, self.book = fresh_start(self.setup, self.first, self.second, self.contact, *drawn_heights(self.generator))

    @property
    def lent(self):
        """What step and block are both lent."""
        return self.setup, self.heights, self.stiffness, self.first, self.second, self.contact, self.turn, self.finger

    @property
    def state(self):
        return state_of(self.first, self.second, self.contact, self.turn, self.finger)

    @property
    def contacts(self):
        """Where the newest string is in contact."""
        string = self.state.newer
        on_neck = any(height > own for height, own in zip(self.heights, string[1:-1]))
        under_finger = string[self.setup.finger_place] > self.finger.newer
        return [ON_NECK] * on_neck + [UNDER_FINGER] * under_finger or [FREE]

    def step(self, pluck, finger_force):
        return self.after(step(*self.lent, pluck, finger_force))

    def step_booked(self, pluck, finger_force):
        stepped, self.book = step_booked(*self.lent, pluck, finger_force, self.book)
        return self.after(stepped)

    def after(self, stepped):
        """After a step that answered this."""
        self.turn, self.finger = stepped.turn, stepped.finger
        return stepped

    def change(self, operation, value):
        """A bend or a slide: later calls get the new setup."""
        self.setup = operation(self.setup, value)

    def change_booked(self, operation, value):
        """The same where bends are booked; of a slide there is nothing to book."""
        if operation is slide:
            self.change(operation, value)
        else:
            self.setup, self.book = bend_booked(self.setup, value, self.first, self.second, self.contact, self.turn, self.finger, self.book)
