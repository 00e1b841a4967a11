"""An interval that certainly holds the least loss of a job's fractional tables, from what a solver found.

Its upper end is the loss, in exact fractions, of a table that meets the job exactly: the least loss is not above that. Such a table is the solver's,
rounded to multiples of 1/d and mended.

Its lower end is the least value of the Lagrangian, or 0 if that is more: the loss, and on top the excess of each link, floor and ceiling times a
multiplier that is 0 or more. At a table that meets the job no excess is above 0, so the Lagrangian is not above the loss there, and its least value
over all tables whatever is not above the least loss. It is the value at the one table v with Av = Wu - g/2, A the house's matrix and g the
multipliers' part of the gradient. A is positive definite: where v'Av is 0, all differences are 0, and so is every cell with a positive weight. Along
each row v is then a polynomial of degree below the order across, so a row with that many positive weights is 0; down each column it is one of degree
below the order down, and that many such rows (refusal 4 sees to them) leave the table of zeros alone. Of a line, each row is a cell. The system is
solved in exact whole numbers. Any multipliers give a certain end; the solver's give a near one.
"""
from fractions import Fraction
from itertools import zip_longest
from house.expect import matrix
from solver.parts import Table, scaled_loss
from verdict import differences, loss, term_sum

PARTS = 2 ** 20

def excess(job, x, d):
    return [max(0, term_sum(terms, x) - b * d) for terms, b in job.links]

def moves(job, x, d, terms, over):
    """The tables, each one cell away, that make a broken link hold, or nearly: as far as the cell's box allows."""
    for c, s in terms:
        lo, hi = job.cells[c][2] * d, job.cells[c][3] * d
        step = -(-over // abs(s))
        to = max(lo, x[c] - step) if s > 0 else min(hi, x[c] + step)
        if to != x[c]:
            yield to - x[c], x[:c] + [to] + x[c + 1:]

def mended(job, x, d, way, turns):
    """Whole numbers near x that meet the job in parts of 1/d, or None: the worst link is mended first, and of equal moves the one up or down."""
    for _ in range(turns):
        over = excess(job, x, d)
        worst = max(over, default=0)
        if worst == 0:
            return x
        terms = job.links[over.index(worst)][0]
        found = list(moves(job, x, d, terms, worst))
        if not found:
            return None
        x = min(found, key=lambda move: (sum(excess(job, move[1], d)), way * move[0]))[1]
    return None

def meeting(job, table, d, turns=300):
    """The table of least loss, of some in parts of 1/d near the one given that meet the job, or None."""
    near = [min(hi * d, max(lo * d, round(v * d))) for v, (_, _, lo, hi) in zip(table, job.cells)]
    found = [x for x in (mended(job, near, d, way, turns) for way in (1, -1)) if x is not None]
    return min(found, key=lambda x: loss_of_parts(job, x, d)) if found else None

def loss_of_parts(job, x, d):
    """The loss of the table x/d."""
    return Fraction(scaled_loss(job, Table(d, x)), d * d)

def upper_end(job, table):
    """The least loss among tables that meet the job and lie near the one given, in coarser and finer parts, or None."""
    found = [loss_of_parts(job, x, d) for d in (1, 100, 10 ** 4, 10 ** 6) for x in [meeting(job, table, d)] if x is not None]
    return min(found, default=None)

# ---- the lower end

def gathered(job, links, floors, ceilings):
    """The multipliers' part of the gradient, and of the Lagrangian at the table of zeros."""
    g = [up - down for up, down in zip(ceilings, floors)]
    for (terms, _), y in zip(job.links, links):
        for c, s in terms:
            g[c] += y * s
    rest = -sum(y * b for (_, b), y in zip(job.links, links))
    rest += sum(down * lo - up * hi for down, up, (_, _, lo, hi) in zip(floors, ceilings, job.cells))
    return g, rest

def band(job, differences=differences):
    """How far apart the cells of a difference can be."""
    return max(terms[-1][0] - terms[0][0] for _, terms in differences(job))

def solved(a, band, right):
    """The solution of a positive definite system in whole numbers, as whole parts of one number, by elimination without fractions: after each step
    the entries left are minors of the matrix, so the division by the pivot before is exact. A row below the band is first touched when the band
    reaches it; until then its entries are its first ones times that pivot."""
    n, before = len(a), 1
    rows, right = [a[i][i:i + band + 1] for i in range(n)], list(right)
    for i, row in enumerate(rows):
        if 0 < i < n - band:
            rows[i + band], right[i + band] = [before * x for x in rows[i + band]], before * right[i + band]
        pivot = row[0]
        for m, factor in enumerate(row[1:], 1):
            rows[i + m] = [(pivot * x - factor * y) // before for x, y in zip_longest(rows[i + m], row[m:], fillvalue=0)]
            right[i + m] = (pivot * right[i + m] - factor * right[i]) // before
        before = pivot
    x = [0] * n
    for i in reversed(range(n)):
        x[i] = (before * right[i] - sum(s * t for s, t in zip(rows[i][1:], x[i + 1:]))) // rows[i][0]
    return x, before

def whole_parts(multipliers):
    return [max(0, round(y * PARTS)) for y in multipliers]

def lower_end(job, links, floors, ceilings):
    """The Lagrangian's least value, for a solver's multipliers of links, floors and ceilings in parts of 1/PARTS."""
    g, rest = gathered(job, *(whole_parts(y) for y in (links, floors, ceilings)))
    x, d = solved(matrix(job), band(job), [2 * PARTS * w * u - y for (u, w, _, _), y in zip(job.cells, g)])
    v = [Fraction(y, 2 * PARTS * d) for y in x]
    return max(Fraction(0), loss(job, v) + (sum(y * z for y, z in zip(g, v)) + rest) / PARTS)
