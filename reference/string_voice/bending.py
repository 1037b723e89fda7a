"""02, item 5: a bend replaces the tension, a slide moves the finger's place. Each answers a new setup, with 1 to 5 judged as it now is: the old value is
not examined."""

from dataclasses import replace

from .setup import check_setup


def bend(setup, tension):
    return examined(replace(setup, tension=tension))


def slide(setup, place):
    return examined(replace(setup, finger_place=place))


def examined(setup):
    check_setup(setup)
    return setup
