"""Writes cases/stdin, calls at the boundaries of documents 01 and 02, at ties, with contacts that pull and with books at their ends, and cases/stdout, the
reference's answers to them, into crates/ or a folder named.

Each refusal number of each operation is given just outside its boundary, withheld on it, and beaten by each earlier number of the operation's
order. The numbers in the tables below are those of the documents; a call to which the reference answers another number stops the writing.
"""

import sys

from book_cases import AT_A_CARRY, END, WORD, all_booked, booked
from calls import Call, answer, crates_folder, refusal_of
from changes import BRIDGE, COLUMNS, COUNT, FINGER, K, L, M, MASS, N, NECK, PLUCK, PRESSED, S, SLACK, STORED, U32, UNDER_FINGER, WORK, Z
from changes import bench_block, bench_setup, bench_step, both, cut, give, longer, put, with_new
from contact_cases import all_contacts

# ---- a call of each operation that is accepted

SETUP = {"setup": [4, 1000, 100, 50, 20, 500, 5000, 2, 1, 3, 1]}
STRINGS = {"first": [100, 200, 300], "second": [110, 190, 310], "contact": [5, -6, 7]}
STATE = STRINGS | {"turn": [0], "finger": [180, 170, 40]}
NECK_AND_STATE = {"heights": [-50, 0, -1000], "stiffness": [60000, 9, 0]} | STATE
FORCES = {"forces": [90000, -70000]}
BOOK = {"book": [1000, -2000, WORD + 3000, -WORD - 4000, 5]}
# with the new value the same setup
BEND = put("setup", (L, 1200))(SETUP) | {"tension": [1000]}
GOOD = {
    "setup": SETUP,
    "bend": BEND,
    "bend_booked": BEND | STATE | BOOK,
    "slide": put("setup", (FINGER, 3))(SETUP) | {"place": [2]},
    "neck": SETUP
    | {
        "board": [-10, -20, -30],
        "board_stiffness": [7],
        "frets": [1, 3],
        "tip": [-5],
        "fret_stiffness": [9],
        "heights": [1, 1, 1],
        "stiffness": [2, 2, 2],
    },
    "start": SETUP | STRINGS | {"heights": [5, -6]},
    "step": SETUP | NECK_AND_STATE | FORCES,
    "step_booked": SETUP | NECK_AND_STATE | FORCES | BOOK,
    "block": SETUP | NECK_AND_STATE | {"forces": [90000, -70000, 0, 0, 0, 4000], "samples": [7] * 6},
    "newest": {"first": [100, 200, 300], "second": [110, 190, 310], "turn": [0]},
    "reading": SETUP | {"heights": [-50, 0, -1000], "first": [100, -200, 300], "second": [110, 190, -1310], "turn": [0], "place": [2]},
}

# ---- what each operation is refused for, in its order: a number, and changes for each of which it is given

SETUP_ROWS = [
    (1, [put("setup", (N, n)) for n in (129, 1, 0, U32)]),
    (2, [put("setup", (Z, 4097)), put("setup", (L, 0))] + [put("setup", (field, n)) for field in (L, M, S, Z) for n in (4097, U32)]),
    (3, [put("setup", (L, 3597)), put("setup", (M, 750)), put("setup", (S, 1349)), put("setup", (L, 4096), (M, 4096), (S, 4096))]),
    (4, [put("setup", (place, n)) for place in (NECK, BRIDGE, PLUCK, FINGER) for n in (0, 4, U32)]),
    (5, [put("setup", (MASS, n)) for n in (0, 1_048_577, U32)]),
]


# 02, item 5: a bend and a slide are examined as a setup is, with the new value; the old one is not examined, whatever it is
NEW = {"bend": with_new("tension", L), "slide": with_new("place", FINGER)}
OLD_TENSIONS = [put("setup", (L, n)) for n in (0, 1, 3596, 3597, 4096, 4097, U32)]
OLD = {
    "bend": OLD_TENSIONS,
    "bend_booked": OLD_TENSIONS,
    "slide": [put("setup", (FINGER, n)) for n in (0, 1, 4, 5, U32)],
}


def string_of(segments, *labels):
    """A setup of so many segments, all its places 1, and buffers of 0 that fit it."""
    changes = [give(label, *([0] * (segments - 1))) for label in labels]
    return both(put("setup", (N, segments), (FINGER, 1), (PLUCK, 1), (BRIDGE, 1), (NECK, 1)), *changes)


def with_frets(*frets, segments=128):
    """A neck at height 0 with these frets."""
    return both(string_of(segments, "board", "heights", "stiffness"), give("frets", *frets), give("tip", 0))


def lengths(*labels):
    """6 for each of these buffers, an entry short and an entry long."""
    return 6, [change(label) for label in labels for change in (cut, longer)]


STEP_BUFFERS = ("heights", "stiffness", "first", "second", "contact")
HEIGHTS_ROW = (7, [put("heights", (0, n)) for n in (1, -1_048_577, 2_147_483_647)] + [put("heights", (2, -2_147_483_648))])
STATE_ROW = (
    11,
    [put(label, (2, n)) for label in ("first", "second") for n in (1_048_577, -1_048_577, 2_147_483_647)]
    + [put("contact", (0, n)) for n in (67_108_865, -67_108_865, -2_147_483_648)]
    + [put("finger", (0, 1_048_577)), put("finger", (1, -1_048_577)), put("finger", (2, 67_108_865)), put("finger", (2, -67_108_865))],
)
FORCES_ROW = (12, [put("forces", (i, n)) for i in (1, 0) for n in (1_073_741_825, -1_073_741_825, -2_147_483_648)])
# the point at 3 is on its way out of range, or the finger
NEXT_DISPLACEMENT_ROW = (13, [put("first", (2, 1_048_576)), put("first", (2, -1_048_576)), put("finger", (0, 1_048_576), (1, 0))])
# the point at 1 is in the board and sinks fast, its contact variable near the end of the range; or the finger is, in the string
NEXT_CONTACT_ROW = (
    14,
    [
        both(put("first", (0, -5000)), put("second", (0, 295_000)), put("contact", (0, -67_000_000))),
        both(put("setup", (MASS, 1_048_576)), put("finger", (0, -300_000), (1, 0), (2, -67_000_000))),
    ],
)

# 02, item 6: each column beyond its ends by one, by a whole high word, and as far as its words go
COUNT_ROW = (16, [put("book", (COUNT, U32))])
COLUMNS_ROW = (
    17,
    [put("book", (column, sign * (END + 1))) for column in COLUMNS for sign in (1, -1)]
    + [put("book", (column, n)) for column in (STORED, WORK) for n in (END + WORD, -END - WORD, 2**127 - 1, -(2**127))],
)

STATE_BUFFERS = ("first", "second", "contact")
BEND_ROWS = [(number, NEW["bend"](changes)) for number, changes in SETUP_ROWS]
ROWS = {
    "setup": SETUP_ROWS,
    "bend": BEND_ROWS,
    # contact comes first: with it cut, the displacement that 11 is given for is still there
    "bend_booked": BEND_ROWS + [lengths("contact", "first", "second"), STATE_ROW, COLUMNS_ROW],
    "slide": [(number, NEW["slide"](changes)) for number, changes in SETUP_ROWS],
    "neck": SETUP_ROWS
    + [
        lengths("board", "heights", "stiffness"),
        (7, [put("board", (1, n)) for n in (1, -1_048_577, 2_147_483_647)]),
        (8, [give("frets", *frets) for frets in ((0,), (4,), (U32,), (2, 2), (3, 2), (1, 3, 2))] + [with_frets(*range(103, 128))]),
        (9, [give("tip", n) for n in (1, -11, 2_147_483_647, -2_147_483_648)]),
    ],
    "start": SETUP_ROWS
    + [
        lengths(*STATE_BUFFERS),
        (10, [put("heights", (0, n)) for n in (-1, 1_048_577)] + [put("heights", (1, n)) for n in (1_048_577, -1_048_577)]),
    ],
    "step": SETUP_ROWS
    + [lengths(*STEP_BUFFERS), HEIGHTS_ROW, STATE_ROW]
    + [FORCES_ROW, NEXT_DISPLACEMENT_ROW, NEXT_CONTACT_ROW],
    "step_booked": SETUP_ROWS
    + [lengths(*STEP_BUFFERS), HEIGHTS_ROW, STATE_ROW]
    + [FORCES_ROW, COUNT_ROW, COLUMNS_ROW, NEXT_DISPLACEMENT_ROW, NEXT_CONTACT_ROW],
    "block": SETUP_ROWS
    + [
        lengths(*STEP_BUFFERS),
        (15, [cut("forces"), longer("forces"), both(longer("forces"), longer("samples")), both(cut("forces"), cut("samples")), give("forces", 90000)]),
        (15, [cut("samples"), give("samples", *([7] * 4)), give("samples", 7), give("samples")]),
        HEIGHTS_ROW,
        STATE_ROW,
    ]
    + [FORCES_ROW, NEXT_DISPLACEMENT_ROW, NEXT_CONTACT_ROW],
    "reading": SETUP_ROWS
    + [
        (4, [give("place", n) for n in (0, 4, U32)]),
        lengths("heights", "first", "second"),
        HEIGHTS_ROW,
        (11, [put("first", (2, n)) for n in (1_048_577, -1_048_577)] + [both(give("turn", 7), put("second", (0, 1_048_577)))]),
    ],
}

# ---- what is accepted: on the boundary of a number

SETUP_ON = [
    put("setup", (L, 3596)),
    put("setup", (M, 749)),
    put("setup", (S, 1348)),
    put("setup", (L, 1)),
    put("setup", (L, 4096), (M, 0), (S, 0)),
    put("setup", (L, 4), (M, 1023), (S, 0)),
    put("setup", (L, 2), (M, 0), (S, 2047)),
    put("setup", (Z, 4096)),
    put("setup", (MASS, 1)),
    put("setup", (MASS, 1_048_576)),
    put("setup", (K, 0)),
    put("setup", (K, 65_535)),
    put("setup", (FINGER, 3), (PLUCK, 3), (BRIDGE, 3), (NECK, 3)),
    put("setup", (FINGER, 1), (PLUCK, 1), (BRIDGE, 1), (NECK, 1)),
]
HEIGHTS_ON = [put("heights", (0, 0)), put("heights", (2, -1_048_576))]
TURNS = [give("turn", n) for n in (1, 2, U32)]
STEP_ON = (
    SETUP_ON
    + [string_of(2, *STEP_BUFFERS), string_of(128, *STEP_BUFFERS)]
    + HEIGHTS_ON
    + TURNS
    + [put("forces", (i, n)) for i in (0, 1) for n in (1_073_741_824, -1_073_741_824)]
    + [put("first", (2, n)) for n in (524_000, -524_000)]
    + [both(put("second", (2, n)), put("first", (2, n))) for n in (1_048_576, -1_048_576)]
    + [put("finger", (0, n), (1, n)) for n in (1_048_576, -1_048_576)]
    + [put("contact", (2, n)) for n in (67_108_864, -67_108_864)]
    + [put("finger", (0, 1000), (2, n)) for n in (67_108_864, -67_108_864)]
)

STATE_ON = (
    [put(label, (2, n)) for label in ("first", "second") for n in (1_048_576, -1_048_576)]
    + [put("contact", (0, n)) for n in (67_108_864, -67_108_864)]
    + [put("finger", (i, n)) for i in (0, 1) for n in (1_048_576, -1_048_576)]
    + [put("finger", (2, n)) for n in (67_108_864, -67_108_864)]
)
COLUMNS_ON = [put("book", (column, n)) for column in COLUMNS for n in (END, -END)]

SETUP_ACCEPTED = SETUP_ON + [put("setup", (N, 128)), string_of(2)]
OTHER_TENSIONS = [give("tension", n) for n in (1200, 1201)]
ACCEPTED = {
    "setup": SETUP_ACCEPTED,
    "bend": NEW["bend"](SETUP_ACCEPTED) + OTHER_TENSIONS,
    "bend_booked": NEW["bend"](SETUP_ON)
    + OTHER_TENSIONS
    + [string_of(2, *STATE_BUFFERS), string_of(128, *STATE_BUFFERS)]
    + TURNS
    + STATE_ON
    + COLUMNS_ON
    + [put("book", (COUNT, n)) for n in (0, U32)],
    "slide": NEW["slide"](SETUP_ACCEPTED) + [give("place", n) for n in (1, 3)],
    "neck": SETUP_ON
    + [with_frets(segments=2), with_frets(1, segments=2)]
    + [put("board", (1, 0)), put("board", (1, -1_048_576))]
    + [give("tip", 0), give("tip", -10), both(give("frets"), give("tip", 1)), both(give("frets"), give("tip", -2_147_483_648))]
    + [give("frets", 1), give("frets", 3), give("frets", 2, 3), give("frets", 1, 2, 3)]
    + [both(put("board", (1, -5)), give("frets", 2)), both(put("board", (0, -1_048_576)), give("frets", 1), give("tip", -1_048_576))]
    + [with_frets(*range(104, 128))],
    "start": SETUP_ON
    + [string_of(2, *STATE_BUFFERS), string_of(128, *STATE_BUFFERS)]
    + [give("heights", *pair) for pair in ((0, 0), (1_048_576, 1_048_576), (0, -1_048_576), (1_048_576, -1_048_576))]
    # the stored energy is 2^63
    + [both(put("setup", (MASS, 1_048_576)), give("heights", 1_048_576, -1_048_576))],
    "step": STEP_ON,
    "step_booked": STEP_ON + COLUMNS_ON + [put("book", (COUNT, n)) for n in (0, U32 - 1)],
    "block": [both(give("forces", 90000, -70000), give("samples", 7, 7), change) for change in STEP_ON]
    + [both(give("forces"), give("samples"), give("turn", n)) for n in (0, 1, 7)]
    + [both(give("forces", *([0] * 64)), give("samples", *([7] * 64)))]
    + [give("samples", *range(7, 7 + n)) for n in (7, 8, 128)]
    + [both(give("forces", 90000, -70000), give("samples", *range(7, 7 + n)), give("turn", turn)) for n in (3, 4, 9) for turn in (0, 1)]
    + [both(give("forces"), give("samples", *range(7, 7 + n))) for n in (1, 2, 128)]
    # the point at 1 falls into the board at the second step, and would leave the range of 14 if the first had not cleared its variable
    + [both(put("first", (0, 300_000)), put("second", (0, 900_000)), put("contact", (0, -67_000_000)))],
    "newest": [give("turn", n) for n in (0, 1, 2, U32)]
    + [both(give("turn", n), cut("first")) for n in (0, 1)]
    + [both(give("turn", n), give("second")) for n in (0, 1)],
    "reading": SETUP_ON
    + [both(string_of(n, "heights", "first", "second"), give("place", 1)) for n in (2, 128)]
    + HEIGHTS_ON
    + [give("place", 1), give("place", 3), give("turn", 1), give("turn", U32), both(give("turn", 9), give("place", 3))]
    + [put("first", (1, n)) for n in (1_048_576, -1_048_576, 0, -1, 1)]
    + [put("second", (1, n)) for n in (1_048_577, -2_147_483_648)]
    + [both(put("heights", (1, -200)), put("first", (1, n))) for n in (-199, -200, -201)],
}

# ---- 01's 'Checked by hand', and the boundaries of 13 and 14 that follow from it

BY_HAND = [
    (0, bench_block(4096, 0, 0, 0, 0, 0, 0, 0)),
    *((0, bench_step(pluck)) for pluck in (2048, 2047, -2048, -2049)),
    (0, bench_step(0, 0, PRESSED)),
    (0, bench_step(0, 0, PRESSED, give("stiffness", 63))),
    (0, bench_step(0, 0, UNDER_FINGER)),
    (0, bench_setup((L, 4092), (M, 1))),
    (3, bench_setup((L, 4093), (M, 1))),
    (0, bench_setup((L, 2048), (S, 1024))),
    (2, bench_setup((L, 4097))),
    (3, bench_setup((L, 4096), (S, 1))),
]

HALVES = (1, 3, 5, -1, -3, -5)
ODD = both(SLACK, give("first", 1), give("second", 1), give("finger", 1, 1, 0))
IN_CONTACT = both(UNDER_FINGER, give("finger", 0, 0, 0))
APART = both(SLACK, put("setup", (N, 3), (FINGER, 2)), *(give(label, 0, 0) for label in ("heights", "stiffness", "first", "second", "contact")))


def halves_in_contact(string, finger):
    """The string under the finger, both at rest: forces by which the exact moves are so many halves. A is 4096, m 4096 and g 8."""
    return bench_step(32 + (4160 * string - 64 * finger) // 2, (4160 * finger - 64 * string) // 2, IN_CONTACT)


# 02, item 2: moves of 1/2, 3/2, 5/2 and their negatives, of string and finger at rest; from odd displacements; in contact; away from p, and there
# from an odd displacement
TIES = [
    *(bench_step(2048 * halves, 2048 * halves) for halves in HALVES),
    *(bench_step(2 + 2048 * halves, 2048 * halves, ODD) for halves in HALVES),
    *(halves_in_contact(halves, halves) for halves in HALVES),
    *(halves_in_contact(*pair) for pair in ((1, 3), (3, 1), (-1, 5), (5, -1), (2, 3), (3, 2))),
    *(bench_step(2048 * halves, 0, APART) for halves in HALVES),
    *(bench_step(2 + 2048 * halves, 0, APART, give("first", 1, 0), give("second", 1, 0)) for halves in HALVES),
]

# at rest now, one end of the range before: without a force the string, or the finger, comes to the other end
FROM_BELOW, FROM_ABOVE = give("second", -1_048_576), give("second", 1_048_576)
FINGER_FROM_BELOW, FINGER_FROM_ABOVE = give("finger", 0, -1_048_576, 0), give("finger", 0, 1_048_576, 0)


def sinking(contact, pluck):
    """The pressed string with another contact variable and some speed, so that it moves by −1 or 1."""
    return bench_step(pluck, 0, PRESSED, give("contact", contact), give("second", -14 if contact > 0 else -18))


def pressing(contact, pluck, finger_force):
    """The string under the finger with another contact variable, so that the finger moves by −1 or 1."""
    return bench_step(pluck, finger_force, UNDER_FINGER, give("finger", 0, 1 if contact > 0 else -1, contact))


def sinking_far(psi):
    """The string pressed with gradient 255, so that it moves by −526,344 and its contact variable from one end of the range to the other."""
    pluck = 8192 * 263_172 - 69_121 * 526_344 - 32 - 510 * psi
    return bench_step(pluck, 0, PRESSED, give("stiffness", 65_535), give("contact", psi), give("second", 263_156))


def pressing_far(phi):
    """The same of the finger: the string moves by 263,172, the finger by −263,172."""
    force = 8192 * 131_586 - 134_146 * 263_172 - 510 * phi
    return bench_step(32 - force, force, UNDER_FINGER, put("setup", (K, 65_535)), give("second", -131_570), give("finger", 0, 131_586, phi))


BOUNDARIES = [
    *((number, bench_step(pluck, 0, FROM_BELOW)) for pluck, number in ((0, 0), (2048, 0), (2049, 13))),
    *((number, bench_step(pluck, 0, FROM_ABOVE)) for pluck, number in ((0, 0), (-2048, 0), (-2049, 13))),
    *((number, bench_step(0, force, FINGER_FROM_BELOW)) for force, number in ((0, 0), (2048, 0), (2049, 13))),
    *((number, bench_step(0, force, FINGER_FROM_ABOVE)) for force, number in ((0, 0), (-2048, 0), (-2049, 13))),
    *((number, sinking(psi, 12_192 - 16 * psi)) for psi, number in ((67_108_856, 0), (67_108_857, 14))),
    *((number, sinking_far(psi)) for psi, number in ((-67_108_856, 0), (-67_108_855, 14))),
    *((number, pressing(phi, 96 + 16 * phi, 4032 - 16 * phi)) for phi, number in ((67_108_856, 0), (67_108_857, 14))),
    *((number, pressing_far(phi)) for phi, number in ((-67_108_856, 0), (-67_108_855, 14))),
    # a contact that would take its variable to the lower end of the range, or below it, pulls
    *((0, sinking(psi, -12_256 - 16 * psi)) for psi in (-67_108_856, -67_108_857)),
    *((0, pressing(phi, -32 + 16 * phi, -4032 - 16 * phi)) for phi in (-67_108_856, -67_108_857)),
]

# the first step of a block is made, the second is refused: 12, 13, 14; with as many samples as forces, and with more
LATER = [
    (12, give("forces", 5, 6, 1_073_741_825, 0, 0, 0)),
    (12, give("forces", 5, 6, 0, -1_073_741_825, 0, 0)),
    (13, put("finger", (0, 400_000), (1, 0))),
    (13, SLACK, give("forces", 0, 0, 1_073_741_824, 0, 0, 0), put("first", (0, 850_000)), put("second", (0, 850_000))),
    # the point at 1 is in the board by 1, where its gradient is 0, and then deep in it
    (14, SLACK, put("stiffness", (0, 1000)), put("first", (0, -51)), put("second", (0, 299_949)), put("contact", (0, -67_000_000))),
]


def all_calls():
    """Title, number and call of each case."""
    for number, call in BY_HAND:
        yield "checked by hand", number, call
    for operation, good in GOOD.items():
        rows = ROWS.get(operation, [])
        yield f"{operation}: accepted", 0, Call(operation, good)
        for change in ACCEPTED[operation]:
            yield f"{operation}: on a boundary", 0, Call(operation, change(good))
        for number, changes in rows:
            for change in changes:
                yield f"{operation}: {number}", number, Call(operation, change(good))
        for row, (later, later_changes) in enumerate(rows):
            for number, changes in rows[:row]:
                if number != later:
                    yield f"{operation}: {number} before {later}", number, Call(operation, both(later_changes[0], changes[0])(good))
    for operation, olds in OLD.items():
        for old in olds:
            yield f"{operation}: whatever the old value is", 0, Call(operation, old(GOOD[operation]))
            for number, changes in ROWS[operation]:
                yield f"{operation}: whatever the old value is", number, Call(operation, both(old, changes[0])(GOOD[operation]))
    worked = [
        *(("boundary of 13 and 14", number, call) for number, call in BOUNDARIES),
        *(("ties", 0, call) for call in TIES),
        *((f"contacts: {title}", number, call) for title, number, call in all_contacts()),
    ]
    yield from worked
    for title, number, call in worked:
        if call.operation == "step":
            yield f"{title}, booked", number, booked(call, AT_A_CARRY)
    for title, call in all_booked():
        yield f"booked: {title}", 0, call
    for number, *changes in LATER:
        yield f"block: {number} at a later step", number, Call("block", both(*changes)(GOOD["block"]))
    for number, *changes in LATER:
        for samples in (7, 16):
            call = both(*changes, give("samples", *range(7, 7 + samples)))(GOOD["block"])
            yield f"block: {number} at a later step, with a surplus of samples", number, Call("block", call)


def main(crates):
    calls, answers, title_before = [], [], None
    for title, number, call in all_calls():
        assert refusal_of(call) == number, f"{title}: {refusal_of(call)} and not {number}: {call.line()}"
        heading = [] if title == title_before else [f"# {title}"]
        calls += [*heading, call.line()]
        answers += [*heading, answer(call)]
        title_before = title
    (crates / "cases" / "stdin").write_text("\n".join(calls) + "\n")
    (crates / "cases" / "stdout").write_text("\n".join(answers) + "\n")


if __name__ == "__main__":
    main(crates_folder(sys.argv))
