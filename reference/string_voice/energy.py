"""01, 'Energy', with 02's items 3 and 5: stored energy; loss, work, residuals, limits and rounding work of a step, by its last working; work of a bend."""

from .differences import d1, difference, dot, e


def stored(setup, state):
    u, v, finger = state.newer, state.older, state.finger
    a = difference(u, v)
    string = 8192 * dot(a, a) + 2 * setup.tension * e(u, v) + 2 * setup.stiffness * dot(d1(u), d1(v)) - setup.viscous * e(a, a)
    hand = 2 * setup.finger_mass * (finger.newer - finger.older) ** 2 + 2 * finger.contact**2
    return string + 2 * dot(state.contact, state.contact) + hand


def let_go(given, worked):
    """Of the state passed in, twice the square of each contact variable that was cleared before the step."""
    psi, phi = difference(given.contact, worked.state.contact), given.finger.contact - worked.state.finger.contact
    return 2 * dot(psi, psi) + 2 * phi**2


def loss(given, worked):
    """The loss of a step from the state passed in."""
    delta = worked.moves
    return 2 * worked.setup.plain * dot(delta, delta) + worked.setup.viscous * e(delta, delta) + let_go(given, worked)


def work(worked):
    return 2 * worked.pluck * worked.moves[worked.setup.pluck_place] + 2 * worked.finger_force * worked.finger_move


def bend_work(old, new, state):
    """The work of a change from one setup to another: of a slide it is 0."""
    return 2 * (new.tension - old.tension) * e(state.newer, state.older)


def equations(worked):
    """For each point in turn, and then for the finger: residual, limit and move."""
    p, m, g = worked.setup.finger_place, worked.setup.finger_mass, worked.gradients.finger
    phi, delta_w = worked.state.finger.contact, worked.finger_move
    for place in worked.setup.places:
        A, c, delta = worked.factors[place], worked.right_sides[place], worked.moves[place]
        if place == p:
            yield (A + g**2) * delta - g**2 * delta_w - (c - 2 * g * phi), A + 2 * g**2, delta
        else:
            yield A * delta - c, A, delta
    yield -(g**2) * worked.moves[p] + (m + g**2) * delta_w - worked.finger_side, m + 2 * g**2, delta_w


def rounding_work(worked):
    return 2 * sum(residual * move for residual, _, move in equations(worked))


def rounding_limit(worked):
    """The sum of each limit times the size of its move."""
    return sum(limit * abs(move) for _, limit, move in equations(worked))


def within_limits(worked):
    """Whether every doubled residual is within its limit."""
    return all(abs(2 * residual) <= limit for residual, limit, _ in equations(worked))
