"""Small jobs that reach the bound of W-208. The best table, and what the accepted one is off it, are polynomials of degrees below the orders: every
difference of both is 0. So G is the weighted squares of what the accepted table is off, and the table as far off on the other side has the same loss and
a farness of 4*G. A rate that is not off may be at an end of its box with the crude rate beyond; so the least loss need not be 0."""
from math import prod
from packs import Grid, Job

BASE = 400000

def small_shape(dice, grid):
    """A small grid, or the shape of a short line."""
    down, across = dice.randint(1, 4), dice.randint(1, 4) if grid else 1
    rows, columns = dice.randint(down + 1, 7), dice.randint(across + 1, 6) if grid else 1
    return Grid(rows, columns, down, across, dice.randint(1, 500) if grid else 0)

def polynomial(shape, rows, columns, times):
    """The whole table of a polynomial that is 0 in those rows and in those columns."""
    return [times * prod(row - x for x in rows) * prod(column - x for x in columns) for row in range(shape.rows) for column in range(shape.columns)]

def cell(dice, w, best, off):
    """A cell whose box has room on both sides for what is off; where nothing is, the best rate is its floor or its ceiling, the crude rate beyond."""
    lo, hi = best - abs(off) - dice.randint(0, 9), best + abs(off) + dice.randint(0, 9)
    if off != 0:
        return best, w, lo, hi
    away = dice.randint(0, 1000)
    return dice.choice(((best + away, w, lo, best), (best - away, w, best, hi)))

def reaching(dice, grid):
    """A job, the accepted table and the best one. All weights are positive, or so few that one rate alone is off among them."""
    shape = small_shape(dice, grid)
    rows, columns = dice.sample(range(shape.rows), shape.down), dice.sample(range(shape.columns), shape.across)
    off = polynomial(shape, rows[1:], columns[1:], dice.choice((-1, 1)) * dice.randint(4, 20))
    best = [BASE + x for x in polynomial(shape, rows[:-1], columns[:-1], dice.randint(-9, 9))]
    every = dice.random() < 0.5
    weights = [dice.randint(1, 1000) if every or (row in rows and column in columns) else 0
               for row in range(shape.rows) for column in range(shape.columns)]
    cells = [cell(dice, *x) for x in zip(weights, best, off)]
    job = Job(shape if grid else shape.down, dice.randint(1, 500), cells, tolerance=10 ** 15)
    return job, [x - y for x, y in zip(best, off)], best
