#!/usr/bin/env python3
"""Compares what the check printed for the solver's jobs (the last part of crates/cases/stdout) with the solver's optima, in exact numbers.

Each job's line has to be the documents' verdict, computed here from the stored packs. The least loss of all tables that meet the job lies in the
interval of tests/solver/optima; if a job is accepted with F and G, it has to lie between F - G and F too. A refused job has to be refused with 9.
Some wrong losses and gaps, some of them of grids alone, have to be told by the optima in at least one job.
The last line is 'N passed, M failed': one count a job, and one for each wrong line, loss or gap that has to be noticed.
"""
import sys
from math import ceil
from pathlib import Path
from statistics import median

sys.path.insert(0, str(Path(__file__).resolve().parents[1]))
from solver.checked import checked_jobs
from solver.optima import near
from solver.slips import SLIPS, WRONG_DIFFERENCES, best_of
from verdict import gap, loss, verdict

def between(told_loss, told_gap, optimum):
    """Whether the least loss can lie between F - G and F."""
    return told_loss - told_gap <= optimum.upper and optimum.lower <= told_loss

def faults(checked):
    job, optimum = checked.job, checked.optimum
    own_loss, own_gap = loss(job, checked.values), gap(job, checked.values, checked.multipliers)
    out = []
    if optimum.named != [job.society, job.job, len(job.cells), job.order, len(job.links)]:
        out.append('its optimum is of another job')
    if checked.told != verdict(job, checked.values, checked.multipliers):
        out.append('its line is not the verdict of the documents')
    if checked.told[0] not in (0, 9):
        out.append('it is refused, and not for its gap')
    if checked.accepted() and not between(checked.told[2], checked.told[3], optimum):
        out.append('the least loss does not lie between F - G and F')
    if not between(own_loss, own_gap, optimum):
        out.append('the least loss does not lie between F - G and F as computed here')
    if not near(optimum.figure, optimum.lower, optimum.upper):
        out.append("the solver's figure is far from its interval")
    return out

def unnoticed(checked, wrong):
    """Of wrong lines for a job: None for each that is noticed, else what would pass."""
    right, out = checked.told, []
    for told in wrong:
        checked.told = told
        out.append(None if faults(checked) else f'the line {told} in place of {right}')
    checked.told = right
    return out

def wrong_lines(jobs):
    """Wrong lines for the first accepted job with a gap, and for the first refused job, and whether they are noticed."""
    accepted, refused = next(x for x in jobs if x.accepted() and x.told[3] > 0), next(x for x in jobs if not x.accepted())
    _, _, f, g = accepted.told
    wrong = unnoticed(accepted, ([0, 0, f + 1, g], [0, 0, f, g - 1], [0, 1, f, g], [9, 0, 0, 0]))
    return wrong + unnoticed(refused, ([9, refused.told[1] + 1, 0, 0], [0, 0, 0, 0]))

def wrong_figures(jobs):
    """Wrong losses and gaps, which the optima alone have to tell: None for each that is noticed, else what would pass."""
    below = [x for x in jobs if between(ceil(x.optimum.lower) - 1, 0, x.optimum)]
    out = [f'a loss below the least, in {len(below)} jobs' if below else None]
    for slip in SLIPS:
        told = [not between(loss(x.job, x.values), slip(x.job, x.values, x.multipliers), x.optimum) for x in jobs]
        print(f'{slip.__doc__[:-1]}: told by the optimum in {sum(told)} of {len(jobs)} jobs')
        out.append(None if any(told) else slip.__doc__)
    return out

def told_in_both(wrong, grids):
    """In how many grids a wrong loss and gap are told, at the stored tables."""
    return sum(not between(loss(x.job, x.values, wrong), gap(x.job, x.values, x.multipliers, wrong), x.optimum) for x in grids)

def told_in_gap(wrong, grids):
    """In how many grids a wrong gap is told beside the right loss, at the tables that it calls the best."""
    tables = [(x, best_of(x.job, wrong)) for x in grids]
    return sum(not between(loss(x.job, v), gap(x.job, v, [0] * len(x.job.links), wrong), x.optimum) for x, v in tables if v)

def wrong_grids(grids):
    """Wrong differences, which the optima of grids alone have to tell: None for each that is noticed, else what would pass."""
    out = []
    for wrong in WRONG_DIFFERENCES:
        both, alone = told_in_both(wrong, grids), told_in_gap(wrong, grids)
        print(f'{wrong.__doc__[:-1]}: told by the optimum in {both} of {len(grids)} grids, of the residual alone in {alone}')
        out += [None if both else wrong.__doc__, None if alone else f'{wrong.__doc__[:-1]}, of the residual alone']
    return out

def report(what, jobs):
    accepted = [x for x in jobs if x.accepted()]
    shares = [x.told[3] / x.told[2] for x in accepted if x.told[2] > 0]
    print(f'{len(jobs)} {what}, {len(accepted)} accepted, {len(jobs) - len(accepted)} refused; '
          f'G relative to F: median {median(shares):.2g}, largest {max(shares):.2g}')

def main():
    jobs = checked_jobs()
    grids = [x for x in jobs if x.job.is_grid()]
    passed = failed = 0
    for checked in jobs:
        wrong = faults(checked)
        for fault in wrong:
            print(f'job {checked.job.job} of society {checked.job.society}: {fault}')
        passed, failed = (passed, failed + 1) if wrong else (passed + 1, failed)
    for wrong in wrong_lines(jobs) + wrong_figures(jobs) + wrong_grids(grids):
        if wrong:
            print(f'not noticed: {wrong}')
        passed, failed = (passed, failed + 1) if wrong else (passed + 1, failed)
    report('lines', [x for x in jobs if not x.job.is_grid()])
    report('grids', grids)
    print(f'{passed} passed, {failed} failed')
    sys.exit(1 if failed else 0)

if __name__ == '__main__':
    main()
