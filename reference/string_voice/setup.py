"""01, 'Setup': what a setup holds, and the refusals 1 to 5 with which every operation begins; 6, the length of lent buffers."""

from dataclasses import dataclass

from .ranges import refuse


@dataclass(frozen=True)
class Setup:
    segments: int  # N
    tension: int  # L
    stiffness: int  # M
    viscous: int  # S
    plain: int  # Z
    finger_stiffness: int  # K
    finger_mass: int  # m
    finger_place: int  # p
    pluck_place: int  # e
    bridge_place: int
    neck_place: int

    @property
    def places(self):
        """The places from 1 to N − 1."""
        return range(1, self.segments)


def check_setup(setup):
    """1 to 5."""
    L, M, S, Z = setup.tension, setup.stiffness, setup.viscous, setup.plain
    refuse(1, not 2 <= setup.segments <= 128)
    refuse(2, L == 0 or max(L, M, S, Z) > 4096)
    refuse(3, L + 4 * M + 2 * S > 4096)
    for place in (setup.finger_place, setup.pluck_place, setup.bridge_place, setup.neck_place):
        refuse(4, place not in setup.places)
    refuse(5, not 1 <= setup.finger_mass <= 1_048_576)


def check_lengths(setup, *buffers):
    """6 for the buffers that an operation is lent."""
    refuse(6, any(len(buffer) != setup.segments - 1 for buffer in buffers))
