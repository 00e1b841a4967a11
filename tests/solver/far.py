#!/usr/bin/env python3
"""Tries from outside how far off a rate can be (W-208, as tests/solver/tried.py says it), in exact numbers.

The jobs are the solver's, with the F and G that the check printed (the last part of crates/cases/stdout), and small ones that reach the bound. Beside each
accepted table are tried the solver's (tests/solver/tables), the one opposite, and random ones that go as far as the job and F allow. The random tables of
each kind of job have to go far, and some wrong statements have to be told by a table.
The last line is 'N passed, M failed': one count for each example worked by hand, each job, each kind of job and each wrong statement.
"""
import random, sys
from fractions import Fraction
from functools import partial
from pathlib import Path
from statistics import median

sys.path.insert(0, str(Path(__file__).resolve().parents[1]))
from cases import expect, grids
from packs import job_of
from solver.checked import checked_jobs
from solver.misstated import MISSMOOTHED, MISSTATED, smoothed
from solver.parts import Table, meets, scaled_loss
from solver.reaching import reaching
from solver.tried import Tried, by_box, by_weight, together
from verdict import farness, loss, verdict

SEED = 208
SMALL = 40

# ---- examples worked by hand

def examples():
    """A job, its table with F and G, another table with its loss, and the farness: 3*2^2, and 2*1 + 1*2^2 + 2*1."""
    return [
        (expect.reaching(), [3, 2, 1], 12, 3, [5, 3, 1], 12, 12),
        (job_of(grids.select_table()), grids.CHANGED, 219, 40, grids.GRADUATED, 211, 8),
    ]

def example_faults(job, values, told_loss, told_gap, other, other_loss, far):
    if verdict(job, values, []) != [0, 0, told_loss, told_gap]:
        yield 'an example is not accepted with its F and G'
    if not meets(job, Table(1, other)) or loss(job, other) != other_loss:
        yield "an example's other table does not meet the job, or has another loss"
    if farness(job, [x - v for x, v in zip(other, values)]) != far:
        yield "an example's farness is another"

# ---- jobs

def faults(tried):
    """What is wrong with the tables tried, or with what is said of them."""
    for other in tried.others():
        if not meets(tried.job, other.table) or other.loss > tried.loss:
            yield 'a table does not meet the job, or has a loss above F'
        if not together(tried, other):
            yield 'a table is farther off than 4*G'
        if not by_weight(tried, other):
            yield 'a rate is farther off than its weight allows'
        if not by_box(tried, other):
            yield 'a rate is farther off than its box allows'

def stored_faults(checked):
    """What is wrong with the solver's table: its loss has to lie by the stored interval, a hundred times nearer than the proposal's."""
    table, optimum = checked.table, checked.optimum
    own = Fraction(scaled_loss(checked.job, table), table.d ** 2)
    if not meets(checked.job, table):
        yield "the solver's table does not meet the job"
    if own < optimum.lower or 100 * (own - optimum.upper) > loss(checked.job, checked.values) - optimum.upper:
        yield "the solver's table is far from its interval"

def small(dice, grid):
    """A small job that reaches the bound."""
    job, values, best = reaching(dice, grid)
    return Tried(dice, job, values, *verdict(job, values, [])[2:], Table(1, best))

def small_faults(tried):
    yield from faults(tried)
    if tried.opposite.farness != 4 * tried.gap:
        yield 'a small job does not reach the bound'

# ---- what the tables are worth

def new_losses(tried):
    """The losses of the random tables that are neither the accepted one nor the best."""
    return [other.loss for other in tried.random if any(other.off) and not other.same(tried.best)]

def up_to_the_loss(tried):
    """Whether some random table's loss is nearer to F than to the best table's."""
    return any(2 * (own - tried.best.loss) >= tried.room() for own in new_losses(tried))

def as_far_as_can_be(tried):
    """Whether some table's farness is within a tenth of 4 times the room: no table that meets the job goes beyond that, as long as none is better than
    the best table."""
    return 10 * max(other.farness for other in tried.others()) >= 9 * 4 * tried.room()

def in_gaps(tried):
    """The largest farness, and the most that one rate has in it, in gaps."""
    alone = [Fraction(max(w * x ** 2 for x, (_, w, _, _) in zip(other.off, tried.job.cells)), other.table.d ** 2) for other in tried.others()]
    return float(max(other.farness for other in tried.others()) / tried.gap), float(max(alone) / tried.gap)

def too_little(kind, jobs):
    """Says what was tried of a kind of job; what its random tables do not reach. A table that is the best itself has no other beside it."""
    free = [x for x in jobs if x.room() > 0]
    new, up, far = (sum(map(bool, map(test, free))) for test in (new_losses, up_to_the_loss, as_far_as_can_be))
    together, alone = zip(*(in_gaps(x) for x in jobs if x.gap > 0))
    print(f'{len(jobs)} {kind}, in {len(jobs) - len(free)} the accepted table is the best; {new} of the other {len(free)} have random tables '
          f'({sum(len(new_losses(x)) for x in free)}), {up} some up to F, {far} some as far off as can be;')
    print(f'    farness: median {median(together):.2g} G, largest {max(together):.3f} G, by one rate {max(alone):.3f} G')
    if new < len(free):
        yield f'some {kind} have no new table'
    if 10 * up < 9 * len(free) or 2 * far < len(free):
        yield f'the tables of {kind} stay near the best'

def not_told(said, misstated, kinds):
    """Says in how many jobs a wrong statement is told; whether lines or grids do not tell it."""
    counts = {kind: sum(map(misstated, jobs)) for kind, jobs in kinds.items()}
    print(f'{said[:-1]}: told in ' + ', '.join(f'{count} of {len(kinds[kind])} {kind}' for kind, count in counts.items()))
    for kind in ('lines', 'grids'):
        if kind in counts and counts[kind] + counts['small ' + kind] == 0:
            yield f'not told by {kind}: {said}'

# ---- the count

def results(dice, checked):
    """For each count what is wrong, and where."""
    kinds = {'lines': [], 'grids': []}
    for x in checked:
        wrong = list(stored_faults(x))
        if x.accepted():
            tried = Tried(dice, x.job, x.values, *x.told[2:], x.table)
            kinds['grids' if x.job.is_grid() else 'lines'].append(tried)
            wrong += faults(tried)
        yield [f'job {x.job.job} of society {x.job.society}: {fault}' for fault in wrong]
    for kind, grid in ('small lines', False), ('small grids', True):
        kinds[kind] = [small(dice, grid) for _ in range(SMALL)]
        yield from map(small_faults, kinds[kind])
    yield from (example_faults(*example) for example in examples())
    yield from (too_little(*kind) for kind in kinds.items())
    yield from (not_told(misstated.__doc__, misstated, kinds) for misstated in MISSTATED)
    of_grids = {kind: kinds[kind] for kind in ('grids', 'small grids')}
    yield from (not_told(f'In the farness: {wrong.__doc__}', partial(smoothed, wrong=wrong), of_grids) for wrong in MISSMOOTHED)

def main():
    passed = failed = 0
    for wrong in map(list, results(random.Random(SEED), checked_jobs())):
        for fault in wrong:
            print(fault)
        passed, failed = (passed, failed + 1) if wrong else (passed + 1, failed)
    print(f'{passed} passed, {failed} failed')
    sys.exit(1 if failed else 0)

if __name__ == '__main__':
    main()
