#!/usr/bin/env python3
"""The solver's jobs with links, lines and grids of at most 12 columns apart: how many proposals are accepted at which tolerance T, the house's beside those
that honour links, of all of them and of those whose table by the solver keeps off all ends of boxes.

  tests/linked/shares.py                   prints the tables that docs/PERFORMANCE.md has
  tests/linked/shares.py --check PASSES    compares with that page what needs at most so many passes; ends with 1 where something differs. With 200 that is all
                                           of it; under the emulator 200 passes take a minute, and 10 of them a few seconds

T is a share of the upper end of the interval of the least loss F (tests/solver/optima), rounded down, and 10^15 at most, which a row of its own has: there
hardly anything is refused but a broken link. tests/linked/calls.c makes the calls, natively with the object that BENCH_OBJECT names, else with the archive that
BENCH_ARCHIVE names; without either Python computes the answers.
"""
import os
import subprocess
import sys
import tempfile
from fractions import Fraction
from math import floor
from pathlib import Path
from statistics import median

HERE = Path(__file__).resolve().parent
ROOT = HERE.parents[1]
PAGE, SECTION = ROOT / 'docs' / 'PERFORMANCE.md', '## Proposals that honour links\n'
sys.path[:0] = [str(HERE), str(HERE.parent)]
from drawn import Call
from house.expect import COLUMNS, outcome as house
from packs import proposal_of
from passes import MOST_PASSES, outcome
from solver.checked import checked_jobs
from verdict import gap, term_sum

MOST_TOLERANCE = 10 ** 15
# From the largest tolerance to the smallest.
SHARES = {'10^15': None, 'F': 1, 'F/10': Fraction(1, 10), 'F/100': Fraction(1, 100), 'F/1,000': Fraction(1, 1000), 'F/10,000': Fraction(1, 10000),
          'F/100,000': Fraction(1, 100000), 'F/1,000,000': Fraction(1, 1000000), '0': 0}
WITHIN = (1, 10, MOST_PASSES)
FLAGS = '-std=c99 -O2 -Iinclude tests/linked/calls.c'

def tolerance(least, share):
    return MOST_TOLERANCE if share is None else min(MOST_TOLERANCE, floor(share * least))

# ---- the calls

def linked_program(path):
    """Links tests/linked/calls.c, and gives the command that runs it; None where there is nothing to link it with."""
    native, archive = os.environ.get('BENCH_OBJECT'), os.environ.get('BENCH_ARCHIVE')
    if not native and not archive:
        return None
    link = f'gcc {FLAGS} "$1" -o "$0"' if native else f'. tests/lib.sh; need_c; cc_x86 -static {FLAGS} "$1" -o "$0"'
    subprocess.run(['bash', '-c', link, path, native or archive], cwd=ROOT, check=True)
    return [path] if native else ['bash', '-c', '. tests/lib.sh; run_x86 "$0"', path]

def asked(calls, program):
    """Number and count of passes for each call."""
    if program is None:
        return [outcome(call.pack, call.passes, call.room)[0:3:2] for call in calls]
    said = subprocess.run(program, input=''.join(call.line() + '\n' for call in calls), capture_output=True, text=True, cwd=ROOT, check=True).stdout
    answers = [[int(x) for x in line.split()[1:4]] for line in said.splitlines()]
    assert len(answers) == len(calls)
    return [(number, count) for number, _, count in answers]

# ---- what is accepted

def house_gap(job):
    """The gap of the house proposal; None where it breaks a link, or where the data is too thin for one."""
    said, _, *pack = house(job, 1024)
    if said != 0:
        return None
    values, multipliers = proposal_of(bytes(pack), job)
    return None if any(term_sum(terms, values) > b for terms, b in job.links) else gap(job, values, multipliers)

def counts(jobs, program, most):
    """For each share the count of passes of every job, 0 where none is accepted. A job that has no accepted pass at a tolerance has none at a smaller one."""
    out, left = {}, list(range(len(jobs)))
    for name, share in SHARES.items():
        for i in left:
            jobs[i].job.tolerance = tolerance(jobs[i].optimum.upper, share)
        found = dict(zip(left, asked([Call(jobs[i].job.pack(), most) for i in left], program)))
        left = [i for i, (number, _) in found.items() if number == 0]
        out[name] = [found[i][1] if i in left else 0 for i in range(len(jobs))]
    return out

def houses(jobs):
    """For each share of which jobs the house proposal is accepted."""
    gaps = [house_gap(x.job) for x in jobs]
    return {name: [own is not None and own <= tolerance(x.optimum.upper, share) for own, x in zip(gaps, jobs)] for name, share in SHARES.items()}

def inside(x):
    """Whether no value of the solver's proposal is at an end of its box."""
    return all(lo < v < hi for v, (_, _, lo, hi) in zip(x.values, x.job.cells))

# ---- tables

def cells(several):
    return '| ' + ' | '.join(map(str, several)) + ' |'

def row(share, house, made, most):
    """The columns that need at most so many passes; the median and the largest count need all."""
    within, found = [sum(0 < count <= least for count in made) for least in WITHIN if least <= most], [count for count in made if count > 0]
    middle = ([f'{median(found):g}', max(found)] if found else ['', '']) if most == MOST_PASSES else []
    return cells([share, sum(house), *within, *middle])

def table(what, made, of_house, taken, most):
    """The rows of those jobs that are taken."""
    head = [f'{sum(taken)} {what}: T', 'house proposal', *(f'within {least} pass{"es" * (least > 1)}' for least in WITHIN if least <= most)]
    head += ['passes, median', 'most'] if most == MOST_PASSES else []
    rows = (row(name, *([x for x, good in zip(several[name], taken) if good] for several in (of_house, made)), most) for name in SHARES)
    return [cells(head), '|---' * len(head) + '|', *rows]

def tables(most):
    jobs = [x for x in checked_jobs() if x.job.links and x.job.shape.columns <= COLUMNS]
    with tempfile.TemporaryDirectory() as folder:
        made, of_house = counts(jobs, linked_program(f'{folder}/calls'), most), houses(jobs)
    kinds = {'lines': lambda x: not x.job.is_grid(), 'grids': lambda x: x.job.is_grid()}
    return ([table(what, made, of_house, [kind(x) for x in jobs], most) for what, kind in kinds.items()]
            + [table(f'{what} inside their boxes', made, of_house, [kind(x) and inside(x) for x in jobs], most) for what, kind in kinds.items()])

# ---- the two commands

def check(most):
    """Every row that is computed is the beginning of the page's."""
    rows = [x for part in tables(most) for x in part]
    page = [x for x in PAGE.read_text().partition(SECTION)[2].partition('\n## ')[0].splitlines() if x.startswith('|')]
    wrong = [f'{a} where {b} is computed' for a, b in zip(page, rows) if not a.startswith(b) or most == MOST_PASSES and a != b]
    wrong += [f'{len(page)} rows where {len(rows)} are computed'] * (len(page) != len(rows))
    for what in wrong:
        print(f'docs/PERFORMANCE.md has {what}')
    return not wrong

def main(arguments):
    if arguments[:1] == ['--check']:
        return check(int(arguments[1]))
    print('\n\n'.join('\n'.join(rows) for rows in tables(MOST_PASSES)))
    return True

if __name__ == '__main__':
    sys.exit(0 if main(sys.argv[1:]) else 1)
