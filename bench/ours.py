"""Runs this repository's programs: the stages of a block, its skin, and how long a whole process takes."""
import os
import re
import resource
import subprocess

import numpy as np


def clock(folder):
    """The library that has a program's clock count processor time, if it could be compiled."""
    path = os.path.join(folder, 'processor_time.so')
    return path if os.path.exists(path) else None


def stages(programs, block):
    """The median of each stage in ms, and the counts, as `bench` says them."""
    counting = clock(os.path.dirname(block))
    env = {**os.environ, 'LD_PRELOAD': counting} if counting else None
    out = subprocess.run([os.path.join(programs, 'bench'), block], check=True, capture_output=True, text=True, env=env).stdout
    counts = re.search(r' corners (\d+) triangles (\d+) parts (\d+)\n', out)
    spans = {label: int(us) / 1000 for label, us in re.findall(r'^  (\w+) best \d+ us median (\d+) us', out, re.M)}
    return spans, [int(n) for n in counts.groups()]


def skin(programs, block, path):
    """Writes the skin of a block, and reads it: its corners' places in grid steps, and its triangles."""
    subprocess.run([os.path.join(programs, 'skin'), block, path], check=True, stdout=subprocess.DEVNULL)
    data = np.fromfile(path, np.uint8)
    corners, triangles = (int(n) for n in data[:8].view('<u4'))
    end = 12 + 6 * corners
    places = data[12:end].view('<u2').reshape(-1, 3) / np.float32(256)
    return places, data[end:].view('<u4').reshape(triangles, 4)[:, :3].astype(np.int64)


def save_stl(path, corners, triangles):
    """The same triangles as a binary STL file, without normals."""
    rows = np.zeros(len(triangles), [('normal', '<f4', 3), ('corners', '<f4', (3, 3)), ('rest', '<u2')])
    rows['corners'] = corners[triangles]
    with open(path, 'wb') as file:
        file.write(bytes(80) + np.uint32(len(triangles)).tobytes())
        rows.tofile(file)


def seconds(command):
    """The processor time of a whole process, in its own code and in the system's."""
    before = resource.getrusage(resource.RUSAGE_CHILDREN)
    subprocess.run(command, check=True, stdout=subprocess.DEVNULL)
    after = resource.getrusage(resource.RUSAGE_CHILDREN)
    return after.ru_utime - before.ru_utime + after.ru_stime - before.ru_stime
