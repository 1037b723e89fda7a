"""01, 'Playing a block, reading a place', with 02's item 1, and the newest string."""

from dataclasses import dataclass
from fractions import Fraction

from .neck import check_heights
from .ranges import DISPLACEMENTS, Refused, all_in, refuse
from .setup import check_lengths, check_setup
from .step import check_forces, check_state, step_made


@dataclass(frozen=True)
class Played:
    count: int
    refusal: int  # 0 if none stopped the block
    turn: int
    finger: object
    steps: list  # those made


def play_block(setup, heights, stiffness, first, second, contact, turn, finger, forces, samples):
    """Makes steps until the forces end or a step is refused. Samples past the last frame made keep their contents. A block that is itself refused answers count 0."""
    try:
        check_setup(setup)
        check_lengths(setup, heights, stiffness, first, second, contact)
        refuse(15, len(forces) % 2 == 1)
        refuse(15, len(samples) < len(forces))
        check_heights(heights)
        check_state(first, second, contact, finger)
    except Refused as refused:
        return Played(0, refused.number, turn, finger, [])
    count, steps = 0, []
    while 2 * count < len(forces):
        pluck, finger_force = forces[2 * count : 2 * count + 2]
        try:
            check_forces(pluck, finger_force)
            stepped = step_made(setup, heights, stiffness, first, second, contact, turn, finger, pluck, finger_force)
        except Refused as refused:
            return Played(count, refused.number, turn, finger, steps)
        turn, finger = stepped.turn, stepped.finger
        samples[2 * count : 2 * count + 2] = stepped.frame
        steps.append(stepped)
        count += 1
    return Played(count, 0, turn, finger, steps)


def newest(first, second, turn):
    """The newest string: that one of the two lent buffers."""
    return first if turn == 0 else second


def read_place(setup, heights, first, second, turn, place):
    """The newest displacement at a place and, where the string is pressed, its depth (else None), both divided by 1,048,576."""
    check_setup(setup)
    refuse(4, place not in setup.places)
    check_lengths(setup, heights, first, second)
    check_heights(heights)
    string = newest(first, second, turn)
    refuse(11, not all_in(string, DISPLACEMENTS))
    displacement, depth = string[place - 1], heights[place - 1] - string[place - 1]
    return Fraction(displacement, 1_048_576), Fraction(depth, 1_048_576) if depth > 0 else None
