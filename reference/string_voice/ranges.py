"""The ranges that document 01 gives, ends included, and the refusal of what lies outside them."""

DISPLACEMENTS = range(-1_048_576, 1_048_576 + 1)
CONTACT_VARIABLES = range(-67_108_864, 67_108_864 + 1)
FORCES = range(-1_073_741_824, 1_073_741_824 + 1)
NECK_HEIGHTS = range(-1_048_576, 0 + 1)


class Refused(Exception):
    """A call that is turned down: 01's number."""

    def __init__(self, number):
        super().__init__(number)
        self.number = number


def refuse(number, condition):
    """Gives the number where its condition holds. The order of these calls is the order of 01's list."""
    if condition:
        raise Refused(number)


def all_in(numbers, allowed):
    """Whether every number is in the range, a `range` of whole numbers."""
    return all(x in allowed for x in numbers)
