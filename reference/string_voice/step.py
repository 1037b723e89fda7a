"""01, 'One step': the fresh start, with 02's item 6, and the step with its refusals and what it writes. The moves are those of 02's items 2 and 3."""

from dataclasses import dataclass
from fractions import Fraction

from .book import fresh_book
from .differences import with_ends
from .energy import stored
from .moves import Finger, State, next_state
from .neck import check_heights
from .pulling import workings
from .ranges import CONTACT_VARIABLES, DISPLACEMENTS, FORCES, all_in, refuse
from .setup import check_lengths, check_setup


@dataclass(frozen=True)
class Stepped:
    """What an accepted step answers; the frame is the new displacement at the bridge pickup and at the neck pickup, divided by 1,048,576. The state passed
    in and the workings say how it came about."""

    turn: int
    finger: Finger
    frame: tuple
    given: State
    workings: list


def fresh_start(setup, first, second, contact, height, older_height):
    """Clears the buffers, and answers turn, finger and book."""
    check_setup(setup)
    check_lengths(setup, first, second, contact)
    refuse(10, not 0 <= height <= 1_048_576 or older_height not in DISPLACEMENTS)
    for buffer in (first, second, contact):
        buffer[:] = [0] * len(buffer)
    finger = Finger(height, older_height, 0)
    return 0, finger, fresh_book(stored(setup, state_of(first, second, contact, 0, finger)))


def state_of(first, second, contact, turn, finger):
    """What the turn says of the lent buffers: 0 means that the first is newer, any other number the second."""
    newer, older = (first, second) if turn == 0 else (second, first)
    return State(with_ends(newer), with_ends(older), with_ends(contact), finger)


def check_state(first, second, contact, finger):
    """11."""
    refuse(11, not all_in([*first, *second, finger.newer, finger.older], DISPLACEMENTS))
    refuse(11, not all_in([*contact, finger.contact], CONTACT_VARIABLES))


def check_forces(pluck, finger_force):
    """12."""
    refuse(12, not all_in([pluck, finger_force], FORCES))


def check_arguments(setup, heights, stiffness, first, second, contact, finger):
    """What a step examines before its forces: 1 to 5, 6, 7 and 11."""
    check_setup(setup)
    check_lengths(setup, heights, stiffness, first, second, contact)
    check_heights(heights)
    check_state(first, second, contact, finger)


def step(setup, heights, stiffness, first, second, contact, turn, finger, pluck, finger_force):
    check_arguments(setup, heights, stiffness, first, second, contact, finger)
    check_forces(pluck, finger_force)
    return step_made(setup, heights, stiffness, first, second, contact, turn, finger, pluck, finger_force)


def step_made(setup, heights, stiffness, first, second, contact, turn, finger, pluck, finger_force):
    """A step whose arguments are examined: 13 and 14 of the last working, then the writing."""
    state = state_of(first, second, contact, turn, finger)
    worked = workings(setup, heights, stiffness, state, pluck, finger_force)
    new = next_state(worked[-1])
    refuse(13, not all_in([*new.newer, new.finger.newer], DISPLACEMENTS))
    refuse(14, not all_in([*new.contact, new.finger.contact], CONTACT_VARIABLES))
    older = second if turn == 0 else first
    older[:] = new.newer[1:-1]
    contact[:] = new.contact[1:-1]
    frame = tuple(Fraction(new.newer[place], 1_048_576) for place in (setup.bridge_place, setup.neck_place))
    return Stepped(1 if turn == 0 else 0, new.finger, frame, state, worked)
