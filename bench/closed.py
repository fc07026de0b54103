"""Whether triangles close: each side once each way, and one ring around each corner that a triangle has."""
import numpy as np


def is_closed(triangles):
    """Of triangles as rows of three corners' numbers."""
    if len(triangles) == 0:
        return True
    a, b, c = triangles.T
    if np.any((a == b) | (b == c) | (c == a)):
        return False
    span = int(triangles.max()) + 1
    sides = np.concatenate([a * span + b, b * span + c, c * span + a])
    back = np.concatenate([b * span + a, c * span + b, a * span + c])
    order = np.sort(sides)
    if np.any(order[1:] == order[:-1]) or not np.array_equal(order, np.sort(back)):
        return False
    # Behind the side from a corner to a neighbour comes the side to the next neighbour: these run in rings, one for each corner.
    following = np.empty(len(sides), np.int64)
    following[np.searchsorted(order, sides)] = np.searchsorted(order, np.concatenate([a * span + c, b * span + a, c * span + b]))
    return rings(following) == len(np.unique(triangles))


def has_hole(triangles):
    """Whether some side is not run as often one way as the other."""
    starts, ends = triangles.reshape(-1), np.roll(triangles, -1, axis=1).reshape(-1)
    span = int(triangles.max(initial=0)) + 1
    return not np.array_equal(np.sort(starts * span + ends), np.sort(ends * span + starts))


def rings(following):
    """How many rings a permutation has: each place learns the least place of its ring, twice as far on at each turn."""
    least = np.arange(len(following))
    for _ in range(len(following).bit_length()):
        least = np.minimum(least, least[following])
        following = following[following]
    return len(np.unique(least))


def by_place(corners, triangles):
    """The triangles with corners at one place taken for one, less those that have a corner twice then."""
    if len(triangles) == 0:
        return triangles
    _, number = np.unique(corners, axis=0, return_inverse=True)
    merged = number.reshape(-1)[triangles]
    a, b, c = merged.T
    return merged[(a != b) & (b != c) & (c != a)]
