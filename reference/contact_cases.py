"""02, item 3: calls in which contact variables are cleared and contacts are dropped, each with its title and its number."""

from calls import Call, stepped
from changes import BENCH, FINGER, K, L, MASS, N, PLUCK, SLACK, bench_step, both, give, put
from drawn import Generator

# one point and the finger: height, u, v, w, w', ψ, φ, the neck's stiffness, K, m, L
THREE_WORKINGS = (-17, -29, -52, -88, -69, 311, -341, 500, 500, 1, 100)
# both contacts pull; one of them would not once the other were dropped alone
ONLY_THE_STRING = (-4, -26, -58, -46, -67, 127, 26, 65535, 64, 4096, 4000)
ONLY_THE_FINGER = (-16, -21, 5, -57, -100, -120, 160, 65535, 3000, 4096, 1)
# one contact pulls, the other once that is dropped; then the first would pull no more
STRING_FIRST = (-1, -52, -4, -85, -99, 162, -278, 2435, 2095, 1, 3905)
FINGER_FIRST = (-13, -43, -14, -95, -67, 171, -302, 451, 2216, 64, 3405)

END = 67_108_864
ON_NECK = (0, -16, -16, 0, 0)  # height, u, v, w, w': the string in the neck by 16, the finger above it
FINGER_ON = (-9, 16, 16, 0, 0)  # the finger in the string by 16


def at_p(height, u, v, w, older_w, psi, phi, stiffness, finger_stiffness, mass, tension, forces=(0, 0)):
    """A step of one point, which is p, and the finger."""
    setup = put("setup", (L, tension), (K, finger_stiffness), (MASS, mass))
    state = (give("first", u), give("second", v), give("contact", psi), give("finger", w, older_w, phi))
    return bench_step(*forces, setup, give("heights", height), give("stiffness", stiffness), *state)


def away(height, u, v, psi, stiffness, pluck=0):
    """A step of two points: the first is plucked, the second is p and at rest, with the finger above it."""
    changes = (give("heights", height, 0), give("stiffness", stiffness, 0), give("first", u, 0), give("second", v, 0), give("contact", psi, 0))
    return bench_step(pluck, 0, SLACK, put("setup", (N, 3), (FINGER, 2)), *changes)


def turned(call):
    """The same step with its strings exchanged, and turn 1."""
    arguments = call.arguments
    return Call("step", arguments | {"first": arguments["second"], "second": arguments["first"], "turn": [1]})


def in_block(call, later=2):
    """A step as the first of a block, with so many steps without forces after it; two samples more."""
    forces = [*call.arguments["forces"], *([0, 0] * later)]
    return Call("block", call.arguments | {"forces": forces, "samples": [7] * (len(forces) + 2)})


# depth and stiffness: not in contact by 1; at its surface; in contact by 1 with gradient 0, and with gradient 8
DEPTHS = ((-1, 65_535), (0, 65_535), (1, 1023), (1, 1024))
VARIABLES = (70, -70, END, -END)


def cleared():
    """At p, away from it, and of the finger; then with turn 1, where only the older string is in contact, and only the newer one."""
    for depth, stiffness in DEPTHS:
        for variable in VARIABLES:
            yield at_p(-5, -5 - depth, -5 - depth, 9, 9, variable, 0, stiffness, 0, 4096, 1)
            yield away(-5, -5 - depth, -5 - depth, variable, stiffness)
            yield at_p(-9, 5, 5, 5 - depth, 5 - depth, 0, variable, 0, stiffness, 4096, 1)
    for u, v in ((0, -1), (-1, 0)):
        yield turned(at_p(0, u, v, 0, 0, 70, 0, 1023, 0, 4096, 1))


def examined():
    """A variable out of range where the depth is at most 0: it is examined before it would be cleared."""
    for depth, _ in DEPTHS[:2]:
        for variable in (END + 1, -END - 1):
            yield at_p(-5, -5 - depth, -5 - depth, 9, 9, variable, 0, 64, 0, 4096, 1)
            yield away(-5, -5 - depth, -5 - depth, variable, 64)
            yield at_p(-9, 5, 5, 5 - depth, 5 - depth, 0, variable, 0, 64, 4096, 1)


def sums():
    """Contacts of gradient 11 and moves of 1 and 2: old and new variable sum to −1, 1, −2, 0 and 2; the string's at p and away from it, then the finger's."""
    for move, variable in ((1, 5), (1, 6), (2, 10), (2, 11), (2, 12)):
        pluck = 4217 * move - 32 - 22 * variable
        yield at_p(*ON_NECK, variable, 0, 128, 0, 4096, 1, (pluck, 0))
        yield away(*ON_NECK[:3], variable, 128, pluck)
        yield at_p(*FINGER_ON, 0, variable, 0, 128, 4096, 1, (32 + 22 * variable - 121 * move, 4217 * move - 22 * variable))


def dropped():
    """In three workings; together, where one by one would end otherwise; and not taken up again."""
    for case in (THREE_WORKINGS, ONLY_THE_STRING, ONLY_THE_FINGER, STRING_FIRST, FINGER_FIRST):
        yield at_p(*case)


def drawn_at_p(generator):
    """Small numbers with which string and finger are both in contact: then moves that are rounded make sums of either sign."""
    height = -generator.draw(31)
    u = height - 1 - generator.draw(50)
    w = u - 1 - generator.draw(50)
    v, older_w = u + generator.around(50, 1), w + generator.around(50, 1)
    psi, phi = generator.around(400, 1), generator.around(400, 1)
    stiffness, finger_stiffness = 3000 + generator.draw(62_536), 3000 + generator.draw(62_536)
    mass = (16, 128, 256, 512)[generator.draw(4)]
    return height, u, v, w, older_w, psi, phi, stiffness, finger_stiffness, mass, 1 + generator.draw(4096)


def three_workings(number):
    """So many drawn steps that drop the string's contact at p and then the finger's, and as many that drop the finger's first."""
    generator, string_first, finger_first = Generator(1), [], []
    for _ in range(100_000):
        call = at_p(*drawn_at_p(generator))
        worked = stepped(call).workings
        if len(worked) == 3:
            (string_first if worked[1].gradients.finger > 0 else finger_first).append(call)
        if min(len(string_first), len(finger_first)) == number:
            return string_first[:number] + finger_first[:number]
    raise AssertionError(f"steps of three workings: {len(string_first)} and {len(finger_first)}, and not {number} each")


def let_through():
    """Steps that 13 would refuse on their first moves: the contact pulls the string out of range, at p, away from it, and the finger upward."""
    yield at_p(0, -1_000_000, -1_000_000, 0, 0, -END, 0, 65_535, 0, 4096, 1)
    yield away(0, -1_000_000, -1_000_000, -END, 65_535)
    yield at_p(-9, 1_000_000, 1_000_000, -1_000_000, -1_000_000, 0, -END, 0, 65_535, 4096, 1)


def rising(pluck):
    """The contact holds the string back in the first moves; in the last ones it comes to the end of its range, or leaves it."""
    return at_p(0, -16, -1_048_576, 0, 0, 0, 0, 65_535, 0, 4096, 1, (pluck, 0)), away(0, -16, -1_048_576, 0, 65_535, pluck)


def rising_into_finger(phi):
    """The string's contact holds it back in the first moves; in the last ones it moves by 300,000, and φ by 8 times as much."""
    forces = (4160 * 300_000 - 8192 * 300_000 - 32 + 16 * phi, -64 * 300_000 - 16 * phi)
    return at_p(0, -16, -300_016, -32, -32, 0, phi, 65_535, 64, 1_048_576, 1, forces)


# the first of four points is cleared and the second, p, whose finger is cleared too; the third pulls; the fourth is what the step is refused for
LEFT_AS_IT_WAS = BENCH | {
    "heights": [0, 0, 0, 0],
    "stiffness": [64, 64, 64, 65_535],
    "first": [5, 0, -16, -16],
    "second": [4, 1, -18, -16],
    "contact": [70, -30, -500, 0],
    "turn": [0],
    "finger": [9, 8, -50],
    "forces": [0, 0],
}
FOUR_POINTS = both(SLACK, put("setup", (N, 5), (K, 64), (FINGER, 2), (PLUCK, 4)))
REFUSED = (
    (12, put("forces", (0, 1_073_741_825))),
    (12, put("forces", (1, -1_073_741_825))),
    (13, put("first", (3, 1_048_576))),
    (13, put("second", (3, -1_048_576)), put("forces", (0, 200_000))),
    (14, put("second", (3, 300_000)), put("contact", (3, -67_000_000))),
)


def refused():
    """Accepted, and then refused with each number, with nothing cleared or dropped."""
    yield 0, Call("step", FOUR_POINTS(LEFT_AS_IT_WAS))
    for number, *changes in REFUSED:
        yield number, Call("step", both(FOUR_POINTS, *changes)(LEFT_AS_IT_WAS))


def judged():
    """By the last moves: 13 and 14 withheld on the boundary and given beyond it, where the first moves are in range."""
    for call in let_through():
        yield 0, call
    for pluck, number in ((133_088, 0), (133_089, 13)):
        for call in rising(pluck):
            yield number, call
    for phi, number in ((64_708_864, 0), (64_708_865, 14)):
        yield number, rising_into_finger(phi)


# a block of two steps: the second is refused
LATER = (
    (12, give("forces", 0, 0, 1_073_741_825, 0)),
    (13, give("forces", 0, 0, 1_073_741_824, 0), put("first", (3, 850_000)), put("second", (3, 850_000))),
    (14, give("forces", 0, 0, 0, 0), put("stiffness", (3, 1000)), put("first", (3, -1)), put("second", (3, 299_999)), put("contact", (3, -67_000_000))),
)


def refused_later():
    """The first step of a block clears and drops; the second is refused."""
    for number, *changes in LATER:
        yield number, Call("block", both(FOUR_POINTS, give("samples", 7, 7, 7, 7), *changes)(LEFT_AS_IT_WAS))


def all_contacts():
    """Title, number and call of each case: steps, and then the same in blocks."""
    steps = [
        *(("cleared", 0, call) for call in cleared()),
        *(("examined before they are cleared", 11, call) for call in examined()),
        *(("sums around 0", 0, call) for call in sums()),
        *(("dropped", 0, call) for call in dropped()),
        *(("nothing cleared by a refused step", number, call) for number, call in refused()),
    ]
    by_last_moves = [("judged by the last moves", number, call) for number, call in judged()]
    yield from [*steps, *by_last_moves]
    for call in three_workings(100):
        yield "dropped in three workings", 0, call
    for title, number, call in steps:
        yield f"{title}, in a block", number, in_block(call)
    for title, number, call in by_last_moves:
        yield f"{title}, in a block", number, in_block(call, later=0)
    for number, call in refused_later():
        yield "the second step of a block refused", number, call
