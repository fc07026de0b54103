#!/usr/bin/env python3
"""Makes the sample blocks beside this file, and where the gate runs them: the same bytes every time.

A block is a, b, c, t, then a value for each point, x going fastest, then y, then z. Points on the border are 0.
"""
import math
import os

HERE = os.path.dirname(os.path.abspath(__file__))
FOLDERS = [HERE, os.path.join(HERE, '..', 'crates', 'exhibits', 'data')]


def write(name, a, b, c, t, value):
    """value(x, y, z) is a number; 0 to 255 of it is kept, and the border is outside."""
    out = bytearray([a, b, c, t])
    for z in range(c):
        for y in range(b):
            for x in range(a):
                border = x in (0, a - 1) or y in (0, b - 1) or z in (0, c - 1)
                out.append(0 if border else max(0, min(255, int(value(x, y, z)))))
    for folder in FOLDERS:
        with open(os.path.join(folder, name), 'wb') as f:
            f.write(out)


def level(inside_by):
    """A value from how far a point lies inside, in grid steps: 128 on the surface."""
    return 128 + 90 * inside_by


def shell(x, y, z):
    """A snail's shell: a hollow ball, divided by a wall that winds as a spiral, open at the mouth."""
    dx, dy, dz = x - 25.5, y - 25.5, z - 25.5
    r = math.sqrt(dx * dx + dy * dy + dz * dz)
    wall = 1.6 - abs(r - 21.5)
    turn = math.atan2(dy, dx) / (2 * math.pi)
    rho = math.hypot(dx, dy)
    spiral = abs((rho / 7.0 - turn) % 1.0 - 0.5) * 7.0
    inner = min(1.3 - spiral, 21.5 - r)
    mouth = math.hypot(dx - 20, dy) - 6.0
    return level(min(max(wall, inner), mouth))


def flute(x, y, z):
    """A flute along z: a tube with a bore, six finger holes and a mouth hole, closed at one end."""
    dx, dy = x - 9.5, y - 9.5
    rho = math.hypot(dx, dy)
    tube = min(7.0 - rho, z - 2.5, 93.5 - z)
    bore = max(rho - 4.2, 6.0 - z)
    body = min(tube, bore)
    for hole_z, radius in ((14, 2.6), (38, 1.9), (46, 1.9), (54, 1.9), (66, 1.9), (74, 1.9), (82, 1.9)):
        if dx > 0:
            body = min(body, math.hypot(dy, z - hole_z) - radius)
    return level(body)


def noise_of(seed):
    """Numbers of 0 to 255, by a linear congruence."""
    state = seed
    while True:
        state = (state * 6364136223846793005 + 1442695040888963407) % 2 ** 64
        yield state >> 56


if __name__ == '__main__':
    write('shell.block', 52, 52, 52, 128, shell)
    write('flute.block', 20, 20, 96, 128, flute)
    numbers = noise_of(2026)
    write('noise.block', 32, 32, 32, 128, lambda x, y, z: next(numbers))
    write('point.block', 3, 3, 3, 128, lambda x, y, z: 255)
