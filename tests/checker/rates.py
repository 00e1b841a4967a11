#!/usr/bin/env python3
"""What tools/rates.c has to print of accepted inputs of the checking program, computed from their bytes alone (W-208).

  tests/checker/rates.py FOLDER      writes FOLDER/i.rates for each FOLDER/i.in that is accepted

It prints what they have among them, and ends with 1 where they lack a kind without which a comparison says little, of lines or of grids.
"""
import sys
from collections import Counter
from pathlib import Path

sys.path.insert(0, str(Path(__file__).resolve().parents[1]))
from packs import Refused, job_of, packs_of, proposal_of
from verdict import least_off, verdict

PROMISE = 'no table that meets the job with a loss of at most F differs from this one by more in any rate'
KINDS = ['largest by its weight', 'largest by its box', 'largest by its box alone', 'largest more than once', 'rounded up', 'weight 0 and G 0']

class Rate:
    """A rate of a table with gap G: how far off it can be at most, and by what. The weight, where it is positive, lets it be off by the least whole
    number whose square times the weight is at least 4G; the box by what is between the rate and its farther end."""

    def __init__(self, v, cell, gap):
        _, self.weight, lo, hi = cell
        self.box = self.off = max(v - lo, hi - v)
        self.by = f'its box {lo}..{hi}' + (' alone, since its weight is 0' if self.weight == 0 else '')
        if self.weight > 0:
            self.least = least_off(self.weight, 4 * gap)
            self.rounded = self.weight * self.least ** 2 > 4 * gap
            if self.least < self.box:
                self.off, self.by = self.least, f'its weight {self.weight}'

    def by_weight(self):
        return self.off < self.box

def largest(rates, weight=0):
    """The lowest place of the largest, of those that have at least this weight."""
    return max((i for i, rate in enumerate(rates) if rate.weight >= weight), key=lambda i: (rates[i].off, -i))

# ---- what is printed

def line(numbers, says):
    return f'{"  " + " ".join(str(x) for x in numbers):<12} {says}\n'

def by_rows(job, numbers, what, more=''):
    if not job.is_grid():
        return line(numbers, what + more)
    columns = job.shape.columns
    return ''.join(line(numbers[row * columns:][:columns], f'{what} of row {row}{more}') for row in range(job.shape.rows))

def one(job, rates, at, what, more=''):
    row, column = divmod(at, job.shape.columns)
    place = f'cell {at} (row {row}, column {column})' if job.is_grid() else f'cell {at}'
    return line([rates[at].off], f'{what}, at {place}, by {rates[at].by}{more}')

def printed(job, v, rates):
    at = largest(rates)
    lines = by_rows(job, v, 'values') + by_rows(job, [rate.off for rate in rates], 'how far off each rate', ' can be, at most')
    lines += one(job, rates, at, 'the largest of these', ': ' + PROMISE)
    return lines if rates[at].weight > 0 else lines + one(job, rates, largest(rates, 1), 'the largest of those with a weight above 0')

# ---- what a comparison meets

def kinds(rates, gap):
    """Of KINDS those that a table has."""
    top = rates[largest(rates)]
    found = [gap > 0 and top.by_weight(),
             top.weight > 0 and top.box < top.least,
             gap > 0 and top.weight == 0,
             sum(rate.off == top.off for rate in rates) > 1,
             any(rate.by_weight() and rate.rounded for rate in rates),
             gap == 0 and any(rate.weight == 0 and rate.box > 0 for rate in rates)]
    return [kind for kind, is_there in zip(KINDS, found) if is_there]

def main(folder):
    met = {'lines': Counter(), 'grids': Counter()}
    for path in Path(folder).glob('*.in'):
        try:
            job_pack, proposal_pack = packs_of(path.read_bytes())
            job = job_of(job_pack)
            v, multipliers = proposal_of(proposal_pack, job)
        except Refused:
            continue
        number, _, _, gap = verdict(job, v, multipliers)
        if number == 0:
            rates = [Rate(x, cell, gap) for x, cell in zip(v, job.cells)]
            path.with_suffix('.rates').write_text(printed(job, v, rates))
            met['grids' if job.is_grid() else 'lines'].update(['accepted', *kinds(rates, gap)])
    for form, counts in met.items():
        print(f'{form}: ' + ', '.join(f'{counts[kind]} {kind}' for kind in ['accepted', *KINDS]))
    return all(counts[kind] for counts in met.values() for kind in KINDS)

sys.exit(0 if main(sys.argv[1]) else 1)
