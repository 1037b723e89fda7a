"""01, 'One step', with 02's item 2: the equations of a step with given gradients, its moves, and the state that they lead to."""

from dataclasses import dataclass
from fractions import Fraction

from .contact import gradient
from .differences import d1, d2, difference, with_ends


@dataclass(frozen=True)
class Finger:
    newer: int  # w
    older: int  # w'
    contact: int  # φ


@dataclass(frozen=True)
class State:
    """What a step starts from, and what it leads to. The lists run over the places 0 to N."""

    newer: list  # u
    older: list  # v
    contact: list  # ψ
    finger: Finger


@dataclass(frozen=True)
class Gradients:
    points: list  # G, over the places 0 to N
    finger: int  # g


@dataclass(frozen=True)
class Worked:
    """A step worked out with some gradients: 01's numbers for it. The lists run over the places 0 to N."""

    setup: object
    state: State
    gradients: Gradients
    pluck: int
    finger_force: int
    factors: list  # A
    right_sides: list  # c
    finger_side: int  # the right side of the second equation at p
    exact_at_p: Fraction  # the solution of both equations at p, not rounded
    exact_finger: Fraction
    moves: list  # δ
    finger_move: int  # δw


def nearest(numerator, denominator):
    """The whole number nearest a fraction: of its two neighbours the nearer one, and of two as near the even one. The denominator is above 0."""
    below = numerator // denominator
    above = below + 1
    to_below, to_above = numerator - denominator * below, denominator * above - numerator
    if to_below == to_above:
        return below if below % 2 == 0 else above
    return below if to_below < to_above else above


def solve(matrix, side):
    """The exact solution of two equations in two unknowns."""
    (a, b), (c, d) = matrix
    determinant = a * d - b * c
    return Fraction(side[0] * d - b * side[1], determinant), Fraction(a * side[1] - side[0] * c, determinant)


def gradients_of(setup, heights, stiffness, state):
    """The gradients at the depths of a state."""
    u = state.newer
    points = with_ends(gradient(k, height - own) for k, height, own in zip(stiffness, heights, u[1:-1]))
    return Gradients(points, gradient(setup.finger_stiffness, u[setup.finger_place] - state.finger.newer))


def work_out(setup, state, gradients, pluck, finger_force):
    """The equations and moves with these gradients."""
    L, M, S, Z, m, p = setup.tension, setup.stiffness, setup.viscous, setup.plain, setup.finger_mass, setup.finger_place
    u, v, finger, G, g = state.newer, state.older, state.finger, gradients.points, gradients.finger

    A = [4096 + Z + slope**2 for slope in G]
    moved = difference(u, v)
    terms = zip(moved, d1(u), d2(u), d1(moved), G, state.contact)
    c = [8192 * a + L * d1u - M * d2u + S * d1a + 2 * slope * psi for a, d1u, d2u, d1a, slope, psi in terms]
    c[setup.pluck_place] += pluck
    finger_side = 2 * m * (finger.newer - finger.older) + finger_force + 2 * g * finger.contact

    moves = [nearest(side, factor) for side, factor in zip(c, A)]
    matrix = ((A[p] + g**2, -(g**2)), (-(g**2), m + g**2))
    at_p, of_finger = solve(matrix, (c[p] - 2 * g * finger.contact, finger_side))
    moves[p] = nearest(*at_p.as_integer_ratio())
    finger_move = nearest(*of_finger.as_integer_ratio())
    return Worked(setup, state, gradients, pluck, finger_force, A, c, finger_side, at_p, of_finger, moves, finger_move)


def next_state(worked):
    """The state that the moves lead to."""
    state, finger, delta, gradients = worked.state, worked.state.finger, worked.moves, worked.gradients
    return State(
        newer=[own + move for own, move in zip(state.older, delta)],
        older=state.newer,
        contact=[psi - slope * move for psi, slope, move in zip(state.contact, gradients.points, delta)],
        finger=Finger(
            newer=finger.older + worked.finger_move,
            older=finger.newer,
            contact=finger.contact + gradients.finger * (delta[worked.setup.finger_place] - worked.finger_move),
        ),
    )
