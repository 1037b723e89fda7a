"""Changes to the arguments of a call, and calls of 01's bench voice with changes, for the tables of cases."""

from calls import Call

U32 = 4_294_967_295
N, L, M, S, Z, K, MASS, FINGER, PLUCK, BRIDGE, NECK = range(11)  # the fields of a setup
STORED, WORK, LOSS, ROUNDING, COUNT = range(5)  # the columns of a book, and its count
COLUMNS = (STORED, WORK, LOSS, ROUNDING)


def put(label, *changes):
    """A change of some entries of an argument: index and value of each."""

    def change(arguments):
        numbers = list(arguments[label])
        for index, value in changes:
            numbers[index] = value
        return arguments | {label: numbers}

    return change


def give(label, *numbers):
    """A change of a whole argument."""
    return lambda arguments: arguments | {label: list(numbers)}


def cut(label):
    """An argument without its last entry."""
    return lambda arguments: arguments | {label: arguments[label][:-1]}


def longer(label):
    """An argument with an entry more."""
    return lambda arguments: arguments | {label: [*arguments[label], 0]}


def both(*changes):
    """Changes one after the other."""

    def change(arguments):
        for one in changes:
            arguments = one(arguments)
        return arguments

    return change


def with_new(label, field):
    """Turns changes of a setup into changes of a call that replaces a field: those of the field become changes of the new value under this label."""

    def turned(change):
        def changed(arguments):
            old, new = arguments["setup"][field], arguments[label][0]
            setup = change(put("setup", (field, new))(arguments))["setup"]
            return both(give("setup", *setup), put("setup", (field, old)), give(label, setup[field]))(arguments)

        return changed

    return lambda changes: [turned(change) for change in changes]


# ---- 01's bench voice

BENCH = {"setup": [2, 4096, 0, 0, 0, 0, 4096, 1, 1, 1, 1]}
BENCH_NECK = {"heights": [0], "stiffness": [0]}
BENCH_REST = {"first": [0], "second": [0], "contact": [0], "turn": [0], "finger": [0, 0, 0]}
SLACK = put("setup", (L, 1), (M, 0), (S, 0))


def bench_setup(*changes):
    return Call("setup", put("setup", *changes)(BENCH))


def bench_step(pluck, finger_force=0, *changes):
    return Call("step", both(*changes)(BENCH | BENCH_NECK | BENCH_REST | {"forces": [pluck, finger_force]}))


def bench_block(*forces):
    return Call("block", BENCH | BENCH_NECK | BENCH_REST | {"forces": list(forces), "samples": [7] * len(forces)})


PRESSED = both(SLACK, give("stiffness", 64), give("first", -16), give("second", -16), give("contact", 1000))
UNDER_FINGER = both(SLACK, put("setup", (K, 64)), give("first", 16), give("second", 16), give("finger", 0, 8, 0))
