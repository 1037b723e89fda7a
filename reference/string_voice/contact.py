"""01, 'Contact gradient', and 02, item 4."""

from math import isqrt


def root(q):
    """The greatest whole number whose square is at most 64·q."""
    return isqrt(64 * q)


def gradient(stiffness, depth):
    if depth <= 0:
        return 0
    return root(min(1023, stiffness * depth // 1024))
