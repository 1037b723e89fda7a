"""01, 'Differences'. A string is here a list over the places 0 to N, zero at both ends."""


def with_ends(points):
    """The string whose points 1 to N − 1 are these."""
    return [0, *points, 0]


def d1(u):
    """Left neighbour − 2·own + right neighbour; zero at places 0 and N."""
    return [0, *(left - 2 * own + right for left, own, right in zip(u, u[1:], u[2:])), 0]


def d2(u):
    return d1(d1(u))


def rises(u):
    """The rise over each of the N segments."""
    return [end - start for start, end in zip(u, u[1:])]


def e(a, b):
    """E(a, b)."""
    return dot(rises(a), rises(b))


def dot(a, b):
    """The sum of the products."""
    return sum(x * y for x, y in zip(a, b))


def difference(a, b):
    """a − b, point by point."""
    return [x - y for x, y in zip(a, b)]
