"""Prints what was measured as markdown tables. Of several turns the quickest counts, for every program alike."""
import datetime
import importlib
import os
import platform
import re
import subprocess
import sys

STAGES = ('counting', 'building', 'parts', 'volumes', 'bytes', 'making', 'streaming', 'whole', 'checking')

# The extractor that ours is held to, in memory that it keeps from run to run, and in fresh memory.
BASE = 'vtkFlyingEdges3D'
FRESH = 'vtkFlyingEdges3D, fresh memory'


def progress(text):
    print(text, file=sys.stderr, flush=True)


def said(command, pattern):
    """What a program says that matches, or a dash."""
    try:
        ran = subprocess.run(command, capture_output=True, text=True)
    except OSError:
        return '-'
    match = re.search(pattern, ran.stdout + ran.stderr)
    return match.group(1).strip() if match else '-'


def version(module):
    try:
        loaded = importlib.import_module(module)
    except ImportError:
        return '-'
    return loaded.vtkVersion().GetVTKVersion() if module == 'vtk' else loaded.__version__


def table(title, head, rows):
    print(f'\n## {title}\n')
    print('| ' + ' | '.join(head) + ' |')
    print('|---' + '|---:' * (len(head) - 1) + '|')
    for row in rows:
        print('| ' + ' | '.join(str(cell) for cell in row) + ' |')
    sys.stdout.flush()


def machine(missing, counting):
    rows = [
        ('date', datetime.date.today().isoformat()),
        ('processor', said(['lscpu'], r'Model name: *(.*)') + ', ' + said(['lscpu'], r'\nCPU\(s\): *(.*)') + ' cores, one used'),
        ('caches', ', '.join(level + ' ' + said(['lscpu'], level + r' cache: *(.*)') for level in ('L1d', 'L2', 'L3'))),
        ('system', platform.platform()),
        ('kit', said(['rt', 'version'], r'(.*)')),
        ('VTK, skimage, numpy', ', '.join(version(module) for module in ('vtk', 'skimage', 'numpy'))),
        ('admesh', said(['admesh', '--version'], r'version ([0-9.]+)')),
        ('missing', ', '.join(missing) or 'none'),
        ('times', 'processor time' if counting else 'elapsed time for our stages, processor time for the others'),
        ('load before', load()),
    ]
    print('## Machine\n\n| | |\n|---|---|')
    for row in rows:
        print('| ' + ' | '.join(row) + ' |')
    sys.stdout.flush()


def load():
    """How many processes wanted a core in the last one, five and fifteen minutes; a quiet machine has 0, or 1 while this measures."""
    return ' '.join(f'{share:.1f}' for share in os.getloadavg())


def least(runs, stage):
    return min(spans[stage] for spans in runs)


def targets(extracted, checked):
    rows = []
    for name, entry in extracted.items():
        rows.append([name])
        for stage, most in (('building', 1.5), ('whole', 3)):
            for peer in (BASE, FRESH):
                run = entry['peers'].get(peer)
                ratio = least(entry['ours'], stage) / min(run['ms']) if run else None
                rows[-1].append(verdict(ratio, ratio <= most) if ratio else '-')
        seconds = checked[name]
        gain = min(seconds['admesh']) / min(seconds['check']) if 'admesh' in seconds else None
        rows[-1].append(verdict(gain, gain >= 3) if gain else '-')
    build, whole = 'our building / FlyingEdges3D (at most 1.5)', 'our whole / FlyingEdges3D (at most 3)'
    table('Targets', ('block', build, 'the same, it in fresh memory', whole, 'the same, it in fresh memory', 'admesh / our check (at least 3)'), rows)


def verdict(ratio, good):
    return f'{ratio:.2f} ' + ('met' if good else 'missed')


def stages(extracted):
    rows = []
    for name, entry in extracted.items():
        spans = [f'{least(entry["ours"], stage):.2f}' for stage in STAGES]
        rows.append([name, *entry['counts'], *spans])
    table('Ours, stage by stage, in ms', ('block', 'corners', 'triangles', 'parts', *STAGES), rows)


def ratios(extracted):
    ours = ('our building / it', 'it / our building', 'our whole / it')
    head = ('block', 'program', 'corners', 'triangles', 'ms', 'slowest turn / quickest', 'ns a triangle', *ours)
    rows = []
    for name, entry in extracted.items():
        build, whole = least(entry['ours'], 'building'), least(entry['ours'], 'whole')
        corners, triangles, _ = entry['counts']
        spread = max(spans['building'] for spans in entry['ours']) / build
        each = 1e6 * build / triangles
        rows.append([name, 'ours, building', corners, triangles, f'{build:.2f}', f'{spread:.2f}', f'{each:.1f}', '', '', ''])
        for peer, run in entry['peers'].items():
            ms = min(run['ms'])
            each = 1e6 * ms / max(1, run['triangles'])
            rows.append([name, peer, run['corners'], run['triangles'], f'{ms:.2f}', f'{max(run["ms"]) / ms:.2f}', f'{each:.1f}'])
            rows[-1] += [f'{build / ms:.2f}', f'{ms / build:.2f}', f'{whole / ms:.2f}']
    table('Extraction beside others', head, rows)


def checks(extracted, checked):
    labels = list(next(iter(checked.values())))
    rows = []
    for name, seconds in checked.items():
        ours = min(seconds['check'])
        rows.append([name, extracted[name]['counts'][1], *(f'{min(seconds[label]):.3f}' for label in labels)])
        rows[-1] += [f'{min(seconds[label]) / ours:.2f}' for label in labels[1:]]
    table('Checking, whole processes, in s', ('block', 'triangles', *labels, *(f'{label} / check' for label in labels[1:])), rows)


def closing(faults, count):
    merged = 'not closed, corners at one place merged'
    head = ('program', 'level', 'not closed, as given', 'of these with a hole', merged, 'of these with a hole', 'two corners at one place')
    rows = [[program, level, *entry.values()] for (program, level), entry in faults.items()]
    table(f'Surfaces that do not close, of {count} small blocks', head, rows)


def growth(found):
    rows = []
    for size, (runs, (corners, triangles, _)) in found.items():
        whole, check = least(runs, 'whole'), least(runs, 'checking')
        rows.append([f'{size}³', corners, triangles, *(f'{least(runs, stage):.2f}' for stage in STAGES)])
        rows[-1] += [f'{1e6 * whole / size ** 3:.1f}', f'{1e6 * whole / triangles:.1f}', f'{1e6 * check / triangles:.1f}']
    head = ('gyroid', 'corners', 'triangles', *STAGES, 'whole, ns a point', 'whole, ns a triangle', 'checking, ns a triangle')
    table('How cost grows, in ms', head, rows)
