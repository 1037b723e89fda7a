"""A call of an operation as a line of text, and the reference's answer to it as another: what program `cases` reads and writes.

A call is the operation's name, then each argument under its label, as whole numbers: a book by the words of its columns, the high one of each first, and its
count.
"""

import struct
from dataclasses import astuple, dataclass
from pathlib import Path

from string_voice.bending import bend, slide
from string_voice.book import Book, words
from string_voice.booking import bend_booked, step_booked
from string_voice.moves import Finger
from string_voice.neck import lay_neck
from string_voice.playing import newest, play_block, read_place
from string_voice.ranges import Refused
from string_voice.setup import Setup, check_setup
from string_voice.step import fresh_start, step


@dataclass(frozen=True)
class Call:
    operation: str
    arguments: dict  # label to list of whole numbers: a book's are its columns and its count

    def line(self):
        written = self.arguments
        if "book" in written:
            book = Book(*written["book"])
            written = written | {"book": [*book_words(book), book.count]}
        return " ".join([self.operation, *(labelled(label, numbers) for label, numbers in written.items())])


def crates_folder(arguments):
    """Where to write: the folder that a command line names, or the repository's crates/."""
    return Path(arguments[1]) if len(arguments) > 1 else Path(__file__).resolve().parent.parent / "crates"


def labelled(label, numbers):
    return " ".join([label, *map(str, numbers)])


def single_bits(x):
    """The bits of a fraction that single precision holds, in hexadecimal; an error if it does not hold it."""
    bits = struct.pack(">f", x)
    assert struct.unpack(">f", bits)[0] == x
    return bits.hex()


def double_bits(x):
    """The same in double precision."""
    bits = struct.pack(">d", x)
    assert struct.unpack(">d", bits)[0] == x
    return bits.hex()


def book_words(book):
    """The words of its columns, the high one of each first."""
    return [word for column in book.columns for word in words(column)]


def book_text(book):
    """The same in hexadecimal, and its count."""
    return labelled("book", [*(f"{word:016x}" for word in book_words(book)), book.count])


def refusal_of(call):
    """The number that a call is refused with; 0 if it is not."""
    answered = answer(call).split()
    if call.operation == "block":
        return int(answered[answered.index("refusal") + 1])
    return int(answered[0]) if answered[0].isdigit() else 0


def copied(call):
    """The arguments of a call, to be written into."""
    return {label: list(numbers) for label, numbers in call.arguments.items()}


def stepped(call):
    """An accepted step, made on a copy of its arguments."""
    return step_of(**copied(call))


def answer(call):
    """What the reference answers, and the lent buffers after the call."""
    arguments = copied(call)
    try:
        answered = OPERATIONS[call.operation](**arguments)
    except Refused as refused:
        answered = str(refused.number)
    buffers = [labelled(label, arguments[label]) for label in LENT.get(call.operation, ())]
    if call.operation == "block":
        buffers.append(labelled("samples", map(single_bits, arguments["samples"])))
    return " ".join([answered, *buffers])


LENT = {
    "neck": ("heights", "stiffness"),
    "start": ("first", "second", "contact"),
    "step": ("first", "second", "contact"),
    "step_booked": ("first", "second", "contact"),
    "block": ("first", "second", "contact"),
}


def finger_text(finger):
    return f"finger {finger.newer} {finger.older} {finger.contact}"


def answer_setup(setup):
    check_setup(Setup(*setup))
    return "0"


def accepted_setup(setup):
    return f"0 {labelled('setup', astuple(setup))}"


def answer_bend(setup, tension):
    return accepted_setup(bend(Setup(*setup), *tension))


def answer_bend_booked(setup, tension, first, second, contact, turn, finger, book):
    new, after = bend_booked(Setup(*setup), *tension, first, second, contact, turn[0], Finger(*finger), Book(*book))
    return f"{accepted_setup(new)} {book_text(after)}"


def answer_slide(setup, place):
    return accepted_setup(slide(Setup(*setup), *place))


def answer_neck(setup, board, board_stiffness, frets, tip, fret_stiffness, heights, stiffness):
    lay_neck(Setup(*setup), board, board_stiffness[0], frets, tip[0], fret_stiffness[0], heights, stiffness)
    return "0"


def answer_start(setup, first, second, contact, heights):
    turn, finger, book = fresh_start(Setup(*setup), first, second, contact, *heights)
    return f"0 turn {turn} {finger_text(finger)} {book_text(book)}"


def step_of(setup, heights, stiffness, first, second, contact, turn, finger, forces):
    return step(Setup(*setup), heights, stiffness, first, second, contact, turn[0], Finger(*finger), *forces)


def accepted_step(made):
    return f"0 turn {made.turn} {finger_text(made.finger)} {labelled('frame', map(single_bits, made.frame))}"


def answer_step(**arguments):
    return accepted_step(step_of(**arguments))


def answer_step_booked(setup, heights, stiffness, first, second, contact, turn, finger, forces, book):
    made, after = step_booked(Setup(*setup), heights, stiffness, first, second, contact, turn[0], Finger(*finger), *forces, Book(*book))
    return f"{accepted_step(made)} {book_text(after)}"


def answer_block(setup, heights, stiffness, first, second, contact, turn, finger, forces, samples):
    played = play_block(Setup(*setup), heights, stiffness, first, second, contact, turn[0], Finger(*finger), forces, samples)
    return f"count {played.count} refusal {played.refusal} turn {played.turn} {finger_text(played.finger)}"


def answer_newest(first, second, turn):
    return labelled("string", newest(first, second, turn[0]))


def answer_reading(setup, heights, first, second, turn, place):
    displacement, depth = read_place(Setup(*setup), heights, first, second, turn[0], place[0])
    if depth is None:
        return f"free {double_bits(displacement)}"
    return f"pressed {double_bits(displacement)} {double_bits(depth)}"


OPERATIONS = {
    "setup": answer_setup,
    "bend": answer_bend,
    "bend_booked": answer_bend_booked,
    "slide": answer_slide,
    "neck": answer_neck,
    "start": answer_start,
    "step": answer_step,
    "step_booked": answer_step_booked,
    "block": answer_block,
    "newest": answer_newest,
    "reading": answer_reading,
}
