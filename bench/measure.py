"""measure.py PROGRAMS FOLDER TURNS: measures, and prints the tables. FOLDER holds the files that are made on the way."""
import multiprocessing
import os
import shutil
import statistics
import sys

import numpy as np

import blocks
import closed
import ours
import peers
import report

SIZE = 96
GROWTH = (24, 48, 72, 96)
SMALL_BLOCKS = 1000


def extraction(programs, folder, turns, extractors):
    """For each block and turn the spans of ours, and the ms of each peer; and the counts."""
    found = {}
    for turn in range(turns):
        for name, shape in blocks.SHAPES.items():
            report.progress(f'turn {turn + 1} of {turns}: {name}')
            values = shape(SIZE)
            path = os.path.join(folder, name + '.block')
            blocks.save(path, values)
            spans, counts = ours.stages(programs, path)
            entry = found.setdefault(name, {'ours': [], 'counts': counts, 'peers': {}})
            entry['ours'].append(spans)
            for label, extract, kept in ways(extractors):
                ms, corners, triangles = apart(extract, values, kept)
                entry['peers'].setdefault(label, {'ms': [], 'corners': corners, 'triangles': triangles})['ms'].append(ms)
    return found


def ways(extractors):
    """Each peer in memory that it keeps from run to run; that which ours are held to in fresh memory too."""
    kept = [(peer, extract, True) for peer, extract in extractors.items()]
    return kept + [(report.FRESH, extractors[peer], False) for peer in extractors if peer == report.BASE]


def apart(extract, values, kept):
    """Measures in a process of its own, so that no peer meets the memory of another."""
    with multiprocessing.get_context('fork').Pool(1) as pool:
        return pool.apply(warm, (extract, values, kept))


def warm(extract, values, kept):
    """The median in ms of five extractions, after one that is not counted, and the counts."""
    if kept:
        peers.keep_memory()
    _, corners, triangles = extract(values, blocks.THRESHOLD)
    counts = len(corners), len(triangles)
    del corners, triangles
    return (1000 * statistics.median(extract(values, blocks.THRESHOLD)[0] for _ in range(5)), *counts)


def checking(programs, folder, turns):
    """For each block the seconds of `check`, and of admesh on the same skin, with all its checks and with that of exact sides alone."""
    found = {}
    for name in blocks.SHAPES:
        report.progress('checking: ' + name)
        skin, stl = os.path.join(folder, name + '.skin'), os.path.join(folder, name + '.stl')
        ours.save_stl(stl, *ours.skin(programs, os.path.join(folder, name + '.block'), skin))
        commands = {'check': [os.path.join(programs, 'check_skin'), skin]}
        if shutil.which('admesh'):
            commands.update({'admesh': ['admesh', stl], 'admesh --exact': ['admesh', '--exact', stl]})
        entry = found[name] = {label: [] for label in commands}
        for _ in range(turns):
            for label, command in commands.items():
                entry[label].append(ours.seconds(command))
        os.remove(stl)
        os.remove(skin)
    return found


def closing(programs, folder, extractors):
    """How many of many small blocks, with values just at the threshold, have a surface that does not close, for each program."""
    random = np.random.default_rng(2028)
    path, out = os.path.join(folder, 'small.block'), os.path.join(folder, 'small.skin')
    faults = {}
    for n in range(SMALL_BLOCKS):
        if n % 100 == 0:
            report.progress(f'closing: block {n} of {SMALL_BLOCKS}')
        values = small_block(random)
        blocks.save(path, values)
        note(faults, ('skin', 't'), *ours.skin(programs, path, out))
        for peer, extract in extractors.items():
            note(faults, (peer, 't'), *extract(values, blocks.THRESHOLD)[1:])
            note(faults, (peer, 't - 1/2'), *extract(values, blocks.THRESHOLD - 0.5)[1:])
    return faults


def small_block(random):
    """4 to 8 points along each axis: one below the threshold, at it, or one above it; on the border below."""
    t = blocks.THRESHOLD
    values = np.full(random.integers(4, 9, 3), t - 1, np.uint8)
    values[1:-1, 1:-1, 1:-1] = random.integers(t - 1, t + 2, values[1:-1, 1:-1, 1:-1].shape)
    return values


def note(faults, key, corners, triangles):
    """Counts surfaces that do not close, and those with holes, as they are given and with corners at one place taken for one; and those
    with such corners."""
    entry = faults.setdefault(key, {'given': 0, 'holes': 0, 'merged': 0, 'holes merged': 0, 'doubled': 0})
    merged = closed.by_place(corners, triangles)
    entry['given'] += not closed.is_closed(triangles)
    entry['holes'] += closed.has_hole(triangles)
    entry['merged'] += not closed.is_closed(merged)
    entry['holes merged'] += closed.has_hole(merged)
    used = corners[np.unique(triangles)]
    entry['doubled'] += len(np.unique(used, axis=0)) < len(used)


def growth(programs, folder, turns):
    """The spans and counts of the gyroid at several sizes."""
    found = {}
    for size in GROWTH:
        report.progress(f'growth: {size}')
        path = os.path.join(folder, f'gyroid{size}.block')
        blocks.save(path, blocks.gyroid(size))
        runs = [ours.stages(programs, path) for _ in range(turns)]
        found[size] = [spans for spans, _ in runs], runs[0][1]
    return found


def main(programs, folder, turns):
    extractors, missing = peers.found()
    if not shutil.which('admesh'):
        missing.append('admesh')
    report.machine(missing, ours.clock(folder))
    extracted = extraction(programs, folder, turns, extractors)
    checked = checking(programs, folder, turns)
    report.targets(extracted, checked)
    report.stages(extracted)
    report.ratios(extracted)
    report.checks(extracted, checked)
    report.closing(closing(programs, folder, extractors), SMALL_BLOCKS)
    report.growth(growth(programs, folder, turns))


if __name__ == '__main__':
    main(sys.argv[1], sys.argv[2], int(sys.argv[3]))
