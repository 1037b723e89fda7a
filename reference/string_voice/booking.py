"""02, item 6: a step and a bend, each with its booking. A refusal leaves book and voice as they were."""

from dataclasses import replace

from .bending import bend
from .book import Book, check_columns, check_count
from .energy import bend_work, loss, rounding_work, stored, work
from .setup import check_lengths
from .step import check_arguments, check_forces, check_state, state_of, step_made


def step_booked(setup, heights, stiffness, first, second, contact, turn, finger, pluck, finger_force, book):
    """What the step answers, and the book with it. 16 and 17 come after 12, and before 13 and 14."""
    check_arguments(setup, heights, stiffness, first, second, contact, finger)
    check_forces(pluck, finger_force)
    check_count(book)
    check_columns(book)
    stepped = step_made(setup, heights, stiffness, first, second, contact, turn, finger, pluck, finger_force)
    worked, new = stepped.workings[-1], state_of(first, second, contact, stepped.turn, stepped.finger)
    return stepped, Book(
        stored=stored(setup, new),
        work=book.work + work(worked),
        loss=book.loss + loss(stepped.given, worked),
        rounding=book.rounding + rounding_work(worked),
        count=book.count + 1,
    )


def bend_booked(setup, tension, first, second, contact, turn, finger, book):
    """The new setup, and the book with the bend. It refuses as a bend does, then with 6 and 11 for the state, then with 17; no step is counted."""
    new = bend(setup, tension)
    check_lengths(new, first, second, contact)
    check_state(first, second, contact, finger)
    check_columns(book)
    state = state_of(first, second, contact, turn, finger)
    return new, replace(book, stored=stored(new, state), work=book.work + bend_work(setup, new, state))
