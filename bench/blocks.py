"""Makes the blocks that are measured: the same bytes every time. Arrays are indexed z, y, x; the border is outside."""
import numpy as np

THRESHOLD = 128


def enclosed(values):
    """Values of any kind as a block's: whole numbers of 0 to 255, with 0 on the border."""
    out = np.clip(np.floor(values), 0, 255).astype(np.uint8)
    for axis in range(3):
        edge = np.moveaxis(out, axis, 0)
        edge[0] = edge[-1] = 0
    return out


def level(inside_by):
    """A value from how far a point lies inside, in grid steps: the threshold on the surface."""
    return THRESHOLD + 90 * inside_by


def places(n):
    """The coordinates z, y, x of each point, from the middle of the block."""
    return np.meshgrid(*[np.arange(n) - (n - 1) / 2] * 3, indexing='ij')


def sphere(n):
    z, y, x = places(n)
    return enclosed(level(0.45 * n - np.sqrt(x * x + y * y + z * z)))


def flute(n):
    """A tube along z with a bore, seven holes and one closed end."""
    z, y, x = places(n)
    unit = n / 96
    rho = np.hypot(x, y)
    tube = np.minimum(20 * unit - rho, 0.47 * n - np.abs(z))
    bore = np.maximum(rho - 13 * unit, -0.42 * n - z)
    body = np.minimum(tube, bore)
    for at in (-34, -10, -2, 6, 18, 26, 34):
        hole = np.hypot(y, z - at * unit) - 2.6 * unit
        body = np.where(x > 0, np.minimum(body, hole), body)
    return enclosed(level(body))


def gyroid(n):
    """A surface with many tunnels, which comes again every 16 points: so there is as much of it about a point at each size."""
    z, y, x = (np.pi / 8 * v for v in places(n))
    return enclosed(THRESHOLD + 80 * (np.sin(x) * np.cos(y) + np.sin(y) * np.cos(z) + np.sin(z) * np.cos(x)))


def smooth(n):
    """Uniform noise, three times averaged over 5 x 5 x 5 points, spread out again."""
    values = np.random.default_rng(2026).random((n, n, n))
    for _ in range(3):
        for axis in range(3):
            values = sum(np.roll(values, by, axis) for by in range(-2, 3)) / 5
    return enclosed(THRESHOLD + 60 * (values - values.mean()) / values.std())


def noise(n):
    return enclosed(np.random.default_rng(2027).integers(0, 256, (n, n, n)))


def alternating(n):
    z, y, x = np.indices((n, n, n))
    return enclosed(255 * ((x + y + z) % 2 == 0))


SHAPES = {'sphere': sphere, 'flute': flute, 'gyroid': gyroid, 'smooth': smooth, 'noise': noise, 'alternating': alternating}


def save(path, values, threshold=THRESHOLD):
    """As FORMATS.md has it: a, b, c, t, then the values, x going fastest."""
    c, b, a = values.shape
    with open(path, 'wb') as file:
        file.write(bytes([a, b, c, threshold]) + values.tobytes())
