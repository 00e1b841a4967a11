#!/usr/bin/python3
"""Makes the solver's jobs: crates/cases/stdin's last part with its lines, tests/solver/optima and tests/solver/tables. Needs Debian's python3-cvxopt.

  tests/solver/make.py lines grids     draws both parts anew; with one of the names the other part stays as it is stored
  tests/solver/make.py tables          solves the stored jobs anew and writes tests/solver/tables alone

A job from the dice is solved as a quadratic program. The values are rounded to whole rates that meet the job, the multipliers to whole numbers, and
those are its proposal; rounded to parts of a rate, the values are the solver's table. A job is drawn again where the solver fails, the interval of its
least loss is wide, no such rounding is found, or the gap says nothing. What is stored is the record: another version of the solver may find other
figures.
"""
import random, sys
from collections import Counter
from math import ceil, floor
from pathlib import Path
from typing import NamedTuple

sys.path.insert(0, str(Path(__file__).resolve().parents[1]))
import cvxopt
from cvxopt import solvers
from cases import expect
from house.expect import matrix
from packs import Grid, check_case, job_of, parts_of, proposal_of, proposal_pack
from solver.bounds import gathered, loss_of_parts, lower_end, meeting, upper_end
from solver.jobs import job as drawn
from solver.optima import OPTIMA, TABLES, near, texts
from verdict import gap, loss

MOST = 10 ** 15
WIDE = 1e-8
DIGITS = 6
DENOMINATORS = [10 ** digits for digits in range(7)]
ENOUGH = 1000

solvers.options.update(show_progress=False, abstol=1e-14, reltol=1e-13, feastol=1e-13, maxiters=60)

# ---- the solver

def program(job, free, scale, weight):
    """The quadratic program of the cells with room in their boxes, in rates of `scale` and losses of scale^2 * weight: P, q, G, h and the
    links that are rows of G after the floors and ceilings."""
    a = matrix(job)
    alone = [(i, lo) for i, (_, _, lo, hi) in enumerate(job.cells) if lo == hi]
    at = {c: p for p, c in enumerate(free)}
    p = cvxopt.matrix([[2.0 * a[i][j] / weight for i in free] for j in free])
    q = cvxopt.matrix([2.0 * (sum(a[i][c] * x for c, x in alone) - job.cells[i][1] * job.cells[i][0]) / scale / weight for i in free])
    rows = [{at[i]: -1.0} for i in free] + [{at[i]: 1.0} for i in free]
    h = [-job.cells[i][2] / scale for i in free] + [job.cells[i][3] / scale for i in free]
    used = [j for j, (terms, _) in enumerate(job.links) if any(c in at for c, _ in terms)]
    for j in used:
        terms, b = job.links[j]
        rows.append({at[c]: float(s) for c, s in terms if c in at})
        h.append((b - sum(s * job.cells[c][2] for c, s in terms if c not in at)) / scale)
    g = cvxopt.matrix([[row.get(c, 0.0) for row in rows] for c in range(len(free))])
    return p, q, g, cvxopt.matrix(h), used

def optimum(job):
    """The solver's values and its multipliers of links, floors and ceilings."""
    n = len(job.cells)
    free = [i for i, (_, _, lo, hi) in enumerate(job.cells) if lo < hi]
    scale = float(max(1, *(u for u, _, _, _ in job.cells), *(lo for _, _, lo, _ in job.cells)))
    weight = float(max(w for _, w, _, _ in job.cells))
    p, q, g, h, used = program(job, free, scale, weight)
    found = solvers.qp(p, q, g, h)
    values = [float(lo) for _, _, lo, _ in job.cells]
    floors, ceilings, links = [0.0] * n, [0.0] * n, [0.0] * len(job.links)
    for place, i in enumerate(free):
        values[i] = found['x'][place] * scale
        floors[i], ceilings[i] = (found['z'][place + side * len(free)] * scale * weight for side in (0, 1))
    for place, j in enumerate(used):
        links[j] = found['z'][2 * len(free) + place] * scale * weight
    pull, _ = gathered(job, links, [0.0] * n, [0.0] * n)
    for i, row in enumerate(matrix(job)):
        if i not in free:
            slope = 2 * (sum(x * v for x, v in zip(row, values)) - job.cells[i][1] * job.cells[i][0]) + pull[i]
            floors[i], ceilings[i] = max(0.0, slope), max(0.0, -slope)
    return values, links, floors, ceilings

# ---- a job with its proposal

class Again(Exception):
    """Why a job is drawn again."""

def proposal(job, values, links):
    """Whole values and multipliers near the solver's."""
    whole, multipliers = meeting(job, values, 1), [max(0, round(y)) for y in links]
    if whole is None:
        raise Again('no whole table found')
    g = gap(job, whole, multipliers)
    if max(multipliers, default=0) > 10 ** 9 or g > MOST:
        raise Again('numbers not allowed')
    if g > loss(job, whole):
        raise Again('a gap above the loss')
    return whole, multipliers

def table_near(job, values, whole):
    """The line of the solver's table. Of tables near the solver's values that meet the job, it is the one in the fewest parts whose loss is above the
    least found by no more than a thousandth of what the whole table's is."""
    found = [(1, whole)] + [(d, x) for d in DENOMINATORS for x in [meeting(job, values, d)] if x is not None]
    losses = [loss_of_parts(job, x, d) for d, x in found]
    enough = min(losses) + (losses[0] - min(losses)) / ENOUGH
    d, x = next(table for table, own in zip(found, losses) if own <= enough)
    return ' '.join(str(number) for number in (d, *(a - d * b for a, b in zip(x, whole))))

def solved(job):
    """Values, multipliers, the line of the solver's table, and the solver's figure with the two that the least loss lies between."""
    if all(lo == hi for _, _, lo, hi in job.cells):
        raise Again('no room in any box')
    try:
        values, links, floors, ceilings = optimum(job)
    except (ArithmeticError, ValueError):
        raise Again('the solver failed')
    upper, lower = upper_end(job, values), lower_end(job, links, floors, ceilings)
    if upper is None or upper - lower > WIDE * upper + 10 ** -DIGITS:
        raise Again('a wide interval')
    figure = loss(job, values)
    if not near(figure, lower, upper):
        raise Again('an optimum beside its interval')
    whole, multipliers = proposal(job, values, links)
    return whole, multipliers, table_near(job, values, whole), (figure, lower, upper)

def tolerance(job, values, multipliers, turn):
    """One job in ten has one less than its gap, two have the gap itself, the others somewhat more."""
    g = gap(job, values, multipliers)
    if turn % 10 == 0 and g > 0:
        return g - 1
    return g if turn % 10 in (1, 2) else min(MOST, g + g // 4 + 10)

def line_sizes(dice):
    """Cells, order field and links of every line: small ones, ages of a life, and the largest."""
    for order in (0, 1, 2, 3, 4):
        z = order or 2
        yield z + 1, order, 2
        yield 120, order, 160
        yield 120, order, 0
        for most, count in ((12, 30), (40, 24), (80, 12), (120, 8)):
            for _ in range(count):
                n = dice.randint(z + 1, most)
                yield n, order, dice.randint(0, min(160, n + n // 2))

LARGE = [
    (10, 12, 4, 4, 160), (10, 12, 4, 4, 0), (12, 10, 4, 4, 160), (10, 12, 1, 1, 160), (10, 12, 2, 3, 160), (10, 10, 2, 2, 100), (8, 15, 3, 2, 120),
    (15, 8, 2, 3, 120), (3, 40, 2, 4, 60), (40, 3, 4, 2, 60), (2, 60, 1, 4, 160), (2, 60, 1, 1, 0), (60, 2, 4, 1, 160), (60, 2, 1, 1, 0),
]

def lengths(dice, order, other, most):
    """A length with room for an order, and one with room for the other, of at most so many cells together."""
    length = dice.randint(order + 1, most // (other + 1))
    return length, dice.randint(other + 1, most // length)

def random_shape(dice, down, across, most):
    """Rows and columns of a grid: as many are narrow as wide."""
    if dice.random() < 0.5:
        return lengths(dice, down, across, most)
    columns, rows = lengths(dice, across, down, most)
    return rows, columns

def grid_shapes(dice):
    """Rows, columns, orders and links of every grid: for each pair of orders the smallest, two of any shape, a narrow one, a wide one and one without
    links; then large ones."""
    for down in (1, 2, 3, 4):
        for across in (1, 2, 3, 4):
            narrow = dice.randint(down + 1, 120 // (across + 1)), across + 1
            wide = down + 1, dice.randint(across + 1, 120 // (down + 1))
            yield down + 1, across + 1, down, across, 2
            for rows, columns in (random_shape(dice, down, across, 40), random_shape(dice, down, across, 120), narrow, wide):
                n = rows * columns
                yield rows, columns, down, across, dice.randint(1, min(160, n + n // 2))
            yield *random_shape(dice, down, across, 120), down, across, 0
    yield from LARGE

def grid_sizes(dice):
    """Cells, grid and links of every grid; its second constant is not set."""
    for rows, columns, down, across, count in grid_shapes(dice):
        yield rows * columns, Grid(rows, columns, down, across, 0), count

def decimals(x, side):
    """A figure in decimals, rounded down or up."""
    whole = side(x * 10 ** DIGITS)
    return f'{whole // 10 ** DIGITS}.{whole % 10 ** DIGITS:0{DIGITS}}'

def kept(dice, size, again):
    """The first drawn job of a size that is not drawn again, and what is found of it; counts the reasons."""
    while True:
        job = drawn(dice, *size)
        try:
            return job, *solved(job)
        except Again as reason:
            again[str(reason)] += 1

class Made(NamedTuple):
    """What is stored of a job: its line of the optima, its line of the tables, and its case."""
    optimum: str
    table: str
    case: bytes

PARTS = {'lines': (1, line_sizes), 'grids': (2, grid_sizes)}

def made(name, first, again):
    """A part's jobs, numbered from `first`."""
    seed, sizes = PARTS[name]
    dice, out = random.Random(seed), []
    for turn, size in enumerate(sizes(random.Random(seed)), first):
        job, values, multipliers, table, (figure, lower, upper) = kept(dice, size, again)
        job.society, job.job, job.tolerance = turn % 8, turn, tolerance(job, values, multipliers, turn)
        named = f'{job.society} {job.job} {len(job.cells)} {job.order} {len(job.links)}'
        text = f'{named} {figure:.{DIGITS}f} {decimals(lower, floor)} {decimals(upper, ceil)}'
        out.append(Made(text, table, check_case(job.pack(), proposal_pack(values, multipliers))))
    return out

# ---- what is stored

def stored():
    """Both parts as they are stored."""
    parts = {'lines': [], 'grids': []}
    for job in map(Made._make, zip(texts(OPTIMA), texts(TABLES), expect.solved(), strict=True)):
        parts['grids' if job_of(parts_of(job.case)[0]).is_grid() else 'lines'].append(job)
    return parts

def write(path, head, lines):
    path.write_text(''.join(line + '\n' for line in [head, *lines]))

def write_optima(lines):
    write(OPTIMA, '# society, job, cells, order field, links, the least loss as the solver has it, and two figures that it lies between', lines)

def write_tables(lines):
    write(TABLES, "# a table near the solver's best that meets the job: d, and by how many parts of 1/d each rate is off the proposal's", lines)

def table_anew(case):
    """The line of the solver's table for a stored case."""
    job, proposal = parts_of(case)
    job = job_of(job)
    return table_near(job, optimum(job)[0], proposal_of(proposal, job)[0])

def draw(*names):
    """Draws the named parts anew."""
    parts, again = stored(), Counter()
    for name in names:
        parts[name] = made(name, 0 if name == 'lines' else len(parts['lines']), again)
    jobs = parts['lines'] + parts['grids']
    write_optima(job.optimum for job in jobs)
    write_tables(job.table for job in jobs)
    expect.write(expect.cases([job.case for job in jobs]))
    print(f'{len(jobs)} jobs; drawn again: {dict(again)}')

def main(*names):
    if names == ('tables',):
        write_tables(table_anew(case) for case in expect.solved())
    elif names and not set(names) - set(PARTS):
        draw(*names)
    else:
        sys.exit(__doc__)

if __name__ == '__main__':
    main(*sys.argv[1:])
