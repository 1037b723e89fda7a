"""02, item 3: contact variables that are cleared before a step, and contacts that pull and are dropped."""

from dataclasses import replace

from .differences import with_ends
from .moves import Gradients, gradients_of, next_state, work_out


def cleared(setup, heights, state):
    """The state with each contact variable 0 whose depth is at most 0."""
    u, finger = state.newer, state.finger
    contact = [psi if height - own > 0 else 0 for psi, height, own in zip(state.contact[1:-1], heights, u[1:-1])]
    phi = finger.contact if u[setup.finger_place] - finger.newer > 0 else 0
    return replace(state, contact=with_ends(contact), finger=replace(finger, contact=phi))


def pulls(slope, old, new):
    """Whether a contact pulls: its gradient is above 0, and its old and its new variable sum below 0."""
    return slope > 0 and old + new < 0


def kept(worked):
    """The gradients of a working, with 0 in place of each whose contact pulls."""
    old, new, gradients = worked.state, next_state(worked), worked.gradients
    points = [0 if pulls(slope, *both) else slope for slope, *both in zip(gradients.points, old.contact, new.contact)]
    finger = 0 if pulls(gradients.finger, old.finger.contact, new.finger.contact) else gradients.finger
    return Gradients(points, finger)


def workings(setup, heights, stiffness, state, pluck, finger_force):
    """A step from the state passed in, worked out from the cleared one: first with the gradients at its depths, and then again, each time without the
    contacts that pulled the time before, until none pulls. The moves of the last working are the step's."""
    start, gradients = cleared(setup, heights, state), gradients_of(setup, heights, stiffness, state)
    worked = []
    while not worked or worked[-1].gradients != gradients:
        worked.append(work_out(setup, start, gradients, pluck, finger_force))
        gradients = kept(worked[-1])
    return worked
