"""Drawn setups, necks, fingers, forces, bends and slides, by a generator that program `runs` has too."""

from string_voice.bending import bend, slide
from string_voice.setup import Setup

BITS = 0xFFFF_FFFF


class Generator:
    """Holds a number of 32 bits other than 0; the first is spread over them from the seed, which is above 0."""

    def __init__(self, seed):
        self.x = seed * 2_654_435_761 & BITS

    def draw(self, n):
        """A number below n."""
        x = self.x
        x ^= x << 13 & BITS
        x ^= x >> 17
        x ^= x << 5 & BITS
        self.x = x
        return x % n

    def some(self, limit):
        """A number from 0 to the limit, small ones more often, 0 in a quarter of the draws."""
        if self.draw(4) == 0:
            return 0
        return self.draw(self.draw(self.draw(limit + 1) + 1) + 1)

    def evenly_or_some(self, limit):
        """A number from 0 to the limit, in half of the draws any as often as another, in half small ones more often."""
        return self.draw(limit + 1) if self.draw(2) == 0 else self.some(limit)

    def either(self, size):
        """A number of this size, above or below 0."""
        return size if self.draw(2) == 0 else -size

    def around(self, limit, unit):
        """A multiple of the unit from −limit to limit."""
        return self.either(multiple(self.draw(limit + 1), unit))

    def beyond(self):
        """A force out of range."""
        return self.either(1_073_741_825 + self.draw(1_073_741_823))


def multiple(number, unit):
    """The greatest multiple of the unit that is at most the number; with a unit of 0 the number itself."""
    return number if unit == 0 else number - number % unit


def drawn_setup(generator, segments):
    """A setup that is accepted, with so many segments. In a quarter of the draws its coefficients are multiples of 512: then many moves are ties."""
    unit = 512 if generator.draw(4) == 0 else 1
    tension = 4096 - multiple(generator.draw(4096), unit)
    stiffness = multiple(generator.evenly_or_some((4096 - tension) // 4), unit)
    return Setup(
        segments=segments,
        tension=tension,
        stiffness=stiffness,
        viscous=multiple(generator.evenly_or_some((4096 - tension - 4 * stiffness) // 2), unit),
        plain=multiple(generator.evenly_or_some(4096), unit),
        finger_stiffness=generator.evenly_or_some(65_535),
        finger_mass=1 + generator.evenly_or_some(1_048_575),
        finger_place=1 + generator.draw(segments - 1),
        pluck_place=1 + generator.draw(segments - 1),
        bridge_place=1 + generator.draw(segments - 1),
        neck_place=1 + generator.draw(segments - 1),
    )


def drawn_neck(generator, segments):
    """What laying a neck takes: board heights and stiffness, fret places, tip height, fret stiffness."""
    depth = generator.some(524_288)
    roughness = generator.some(524_288)
    board = [-(depth + generator.draw(roughness + 1)) for _ in range(1, segments)]
    spacing = 1 + generator.draw(32)
    frets = [place for place in range(1, segments) if generator.draw(spacing) == 0][:24]
    tip = -generator.draw(depth + 1)
    board_stiffness = generator.evenly_or_some(65_535)
    return board, board_stiffness, frets, tip, generator.evenly_or_some(65_535)


def drawn_heights(generator):
    """The finger's height and its older height: at rest, or in a quarter of the draws coming down, or in a quarter anywhere before."""
    height = generator.some(786_432)
    kind = generator.draw(4)
    if kind == 0:
        return height, height + generator.draw(262_145)
    if kind == 1:
        return height, generator.around(1_048_576, 1)
    return height, height


def drawn_range(generator, halves, half):
    """What forces are multiples of, and how large they are at most."""
    return (half, 8 * half) if halves else (1, generator.some(1_073_741_824))


def drawn_forces(generator, setup):
    """The forces of 64 frames: some plucks, then none; some finger forces, then none; in a quarter of the draws one of them out of range.

    In half of the draws they are small multiples of one half of what divides them, 4096 + Z and the finger's mass: an odd multiple may make a tie.
    """
    halves = generator.draw(2) == 0
    pluck_unit, pluck_limit = drawn_range(generator, halves, 2048 + setup.plain // 2)
    finger_unit, finger_limit = drawn_range(generator, halves, setup.finger_mass // 2)
    plucked, pressed = generator.some(64), generator.some(64)
    forces = [0] * 128
    for frame in range(plucked):
        forces[2 * frame] = generator.around(pluck_limit, pluck_unit)
    for frame in range(pressed):
        forces[2 * frame + 1] = generator.around(finger_limit, finger_unit)
    if generator.draw(4) == 0:
        which = generator.draw(128)
        forces[which] = generator.beyond()
    return forces


def drawn_tension(generator, setup):
    """A tension to bend to. In an eighth of the draws it is refused, for it is 0 or above the greatest that the sum leaves room for. Where the old one is a
    multiple of 512 it is one too, so that there are still ties."""
    greatest = 4096 - 4 * setup.stiffness - 2 * setup.viscous
    if generator.draw(8) == 0:
        above, excess = generator.draw(2), generator.draw(4097 - greatest)
        return greatest + 1 + excess if above else 0
    unit = 512 if setup.tension % 512 == 0 else 1
    return greatest - multiple(generator.draw(greatest), unit)


def drawn_bend(generator, setup):
    return bend, drawn_tension(generator, setup)


def drawn_slide(generator, setup):
    """To a place that in an eighth of the draws is refused, for it is an end of the string."""
    if generator.draw(8) == 0:
        return slide, setup.segments if generator.draw(2) else 0
    return slide, 1 + generator.draw(setup.segments - 1)


def drawn_change(generator, setup):
    """A bend or a slide: the operation and its new value."""
    return drawn_bend(generator, setup) if generator.draw(2) == 0 else drawn_slide(generator, setup)
