"""02, item 6: booked calls with columns at carries and near their ends, with the largest energies, and drawn ones, each with its title; all are accepted."""

from dataclasses import astuple

from calls import Call, refusal_of
from changes import BENCH, BENCH_REST, L, M, MASS, N, PLUCK, S, SLACK, U32, Z, bench_step, both, give, put
from drawn import Generator, drawn_setup

WORD = 2**64
END = 2**120
FAR = 1_048_576  # the end of the displacements
CONTACT_END = 67_108_864
EMPTY = [0, 0, 0, 0, 0]
# columns to which nearly everything that is added carries into the high word, or takes from it
AT_A_CARRY = [5, -1, WORD - 1, 0, 41]
# on either side of a change of the high word, with the top bit of the low word set, and at the ends of the range
CARRIES_AND_ENDS = (0, 1, -1, WORD - 1, WORD, -WORD, -WORD - 1, WORD // 2, -WORD // 2 - 1, 7 * WORD - 1, -7 * WORD, END, END - 1, -END, 1 - END)


def booked(call, book):
    """A step that is booked."""
    return Call("step_booked", call.arguments | {"book": book})


def bench_bend(tension, *changes):
    """A booked bend of the bench voice."""
    return Call("bend_booked", both(*changes)(BENCH | {"tension": [tension]} | BENCH_REST | {"book": EMPTY}))


def by_hand():
    """The bench voice from a fresh start: no rounding work; none at all at a tie; rounding work above and below 0."""
    for pluck in (4096, 2048, 3000, 5000, -3000, -5000):
        yield booked(bench_step(pluck), EMPTY)


def steps():
    """Steps of one point: small works and rounding works, each above and below 0; losses, with variables that are cleared; large works of either sign."""
    yield bench_step(3000)
    yield bench_step(5000)
    yield bench_step(-5000, 0, SLACK, give("second", -100))
    yield bench_step(100, 200, SLACK, put("setup", (Z, 300)), give("second", -40), give("contact", 70), give("finger", 0, 0, -30))
    yield bench_step(-1_073_741_824, 0, SLACK, put("setup", (Z, 4096)), give("second", -900_000), give("contact", CONTACT_END))
    yield bench_step(1_073_741_824, -1_073_741_824, SLACK, give("second", -300_000), give("finger", 0, -300_000, 0))


def bends():
    """Bends of one point: works of 4 and −4, and of 2^74 less a little and its negative."""
    yield bench_bend(4096, put("setup", (L, 4095)), give("first", 1), give("second", 1))
    yield bench_bend(4095, give("first", 1), give("second", 1))
    yield bench_bend(1, put("setup", (L, U32)), give("first", FAR), give("second", -FAR))
    yield bench_bend(1, put("setup", (L, U32)), give("first", FAR), give("second", FAR))


def at_columns():
    """Each of these with every column at a carry or an end. Only what is passed in is judged by 17."""
    for call in (*(booked(call, EMPTY) for call in steps()), *bends()):
        for column in CARRIES_AND_ENDS:
            yield Call(call.operation, call.arguments | {"book": [column] * 4 + [7]})


def long_string(setup, **lists):
    """128 segments; each list has its numbers in turn from point to point."""
    repeated = [give(label, *(numbers[i % len(numbers)] for i in range(127))) for label, numbers in lists.items()]
    return both(put("setup", (N, 128), (L, 1), (PLUCK, 64), *setup), *repeated)


UP_AND_DOWN, DOWN_AND_UP = (FAR, -FAR), (-FAR, FAR)


def largest_bends():
    """Each part of the stored energy at its largest, and those that can be below 0 at their least; works of nearly 2^82, and its negative."""
    for tension, setup, second in (
        (4096, (), UP_AND_DOWN),
        (4096, (), DOWN_AND_UP),
        (4, ((M, 1023),), UP_AND_DOWN),
        (4, ((M, 1023),), DOWN_AND_UP),
        (2, ((S, 2047),), DOWN_AND_UP),
        (1, (), DOWN_AND_UP),
    ):
        string = long_string((*setup, (L, U32), (MASS, FAR)), first=UP_AND_DOWN, second=second, contact=(CONTACT_END, -CONTACT_END))
        # the finger's energy is 2^63, and with its variable more
        yield bench_bend(tension, string, give("finger", FAR, -FAR, CONTACT_END))


def largest_steps():
    """The largest moves; the largest losses, plain and viscous, with the largest variables cleared."""
    for setup in ((), ((Z, 4096),), ((S, 1000), (Z, 1000))):
        neck = {"heights": (-FAR,), "stiffness": (0,)}
        string = long_string(setup, **neck, first=(0,), second=UP_AND_DOWN, contact=(CONTACT_END, -CONTACT_END))
        yield booked(bench_step(0, 0, string, give("finger", FAR, FAR, -CONTACT_END)), AT_A_CARRY)


def drawn_column(generator):
    """A column in range, of any size."""
    size = sum(generator.draw(2**30) << 30 * part for part in range(4))
    return generator.either(size >> generator.draw(120))


def drawn_voice(generator):
    """A voice of few segments in any state, with any book."""
    segments = 2 + generator.draw(5)
    limit = (30, 3000, 300_000, FAR)[generator.draw(4)]

    def numbers(limit):
        return [generator.around(limit, 1) for _ in range(segments - 1)]

    return {
        "setup": list(astuple(drawn_setup(generator, segments))),
        "heights": [-abs(height) for height in numbers(limit)],
        "stiffness": [generator.draw(65_536) for _ in range(segments - 1)],
        "first": numbers(limit),
        "second": numbers(limit),
        "contact": numbers(64 * limit),
        "turn": [generator.draw(2)],
        "finger": [generator.around(limit, 1), generator.around(limit, 1), generator.around(64 * limit, 1)],
        "forces": [generator.around(1024 * limit, 1), generator.around(1024 * limit, 1)],
        "book": [*(drawn_column(generator) for _ in range(4)), generator.draw(U32)],
    }


def drawn(number):
    """So many booked steps and so many booked bends that are accepted."""
    generator, found = Generator(1), {"step_booked": [], "bend_booked": []}
    while min(map(len, found.values())) < number:
        voice = drawn_voice(generator)
        bent = {label: numbers for label, numbers in voice.items() if label not in ("heights", "stiffness", "forces")}
        setup = voice["setup"]
        tension = {"tension": [1 + generator.draw(setup[L])]}
        for call in (Call("step_booked", voice), Call("bend_booked", {"setup": setup} | tension | bent)):
            if refusal_of(call) == 0:
                found[call.operation].append(call)
    return [call for calls in found.values() for call in calls[:number]]


def all_booked():
    """Title and call of each case."""
    for title, calls in (
        ("by hand", by_hand()),
        ("columns at carries and ends", at_columns()),
        ("the largest energies", (*largest_bends(), *largest_steps())),
        ("drawn", drawn(50)),
    ):
        for call in calls:
            yield title, call
