"""Tables that meet a job with a loss of at most a figure, found on straight ways. Between two such tables lie only such tables, so a way that has left
them does not come back, and its last one is found exactly, in parts of a step. What is found here is tested anew where it is used."""
from math import isqrt
from solver.bounds import mended
from solver.parts import Table, scaled_loss
from verdict import farness, term_sum

PARTS = 2 ** 20
TURNS = 30
TRIES = 3

# ---- the last table on a way

def box_rooms(job, table, step):
    """How fast a step nears the end of each box, and how far that end is."""
    return [(s, hi * table.d - x) if s > 0 else (-s, x - lo * table.d) for x, s, (_, _, lo, hi) in zip(table.x, step, job.cells)]

def link_rooms(job, table, step):
    """The same of the links' bounds."""
    return [(term_sum(terms, step), b * table.d - term_sum(terms, table.x)) for terms, b in job.links]

def by_loss(job, table, step, most):
    """How many parts of a step lead up to a loss of `most`, rounded down: the loss is a square function of them, and this is its larger root, if
    there is one."""
    start, square = scaled_loss(job, table) - most * table.d ** 2, farness(job, step)
    slope = scaled_loss(job, Table(table.d, [x + s for x, s in zip(table.x, step)])) - most * table.d ** 2 - start - square
    return (isqrt(PARTS ** 2 * max(0, slope ** 2 - 4 * square * start)) - PARTS * slope) // (2 * square)

def last(job, table, step, most, asked=(box_rooms, link_rooms)):
    """The last table on the way from one along a step that keeps to what is asked, with a loss of at most `most`; that one itself if there is none."""
    rooms = [PARTS * room // pace for limits in asked for pace, room in limits(job, table, step) if pace > 0]
    p = max(0, min([by_loss(job, table, step, most)] + rooms)) if any(step) else 0
    return Table(table.d * PARTS, [PARTS * x + p * s for x, s in zip(table.x, step)])

# ---- random tables

def every_rate(dice, sizes):
    return [dice.randint(-size, size) for size in sizes]

def one_rate(dice, sizes):
    at = dice.randrange(len(sizes))
    return [dice.choice((-size, size)) if i == at else 0 for i, size in enumerate(sizes)]

def all_alike(dice, sizes):
    size = dice.choice(sizes)
    return [dice.choice((-size, size))] * len(sizes)

KINDS = (every_rate, one_rate, all_alike)

def shaken(dice, kind, job, table, gap):
    """A table that meets the job, from one that does: rates are moved by about as much as the gap grants each by its weight, and mended. None if
    that fails, or leads back, a few times."""
    d, sizes = table.d, [isqrt(gap * table.d ** 2 // max(1, w)) + 1 for _, w, _, _ in job.cells]
    for _ in range(TRIES):
        moved = [min(hi * d, max(lo * d, x + move)) for x, move, (_, _, lo, hi) in zip(table.x, kind(dice, sizes), job.cells)]
        x = mended(job, moved, d, dice.choice((1, -1)), TURNS)
        if x not in (None, table.x):
            return Table(d, x)
    return None

def middle(table, finer):
    """The middle of two tables, one of them in finer parts."""
    times = finer.d // table.d
    return Table(2 * finer.d, [times * x + y for x, y in zip(table.x, finer.x)])

def opposite(job, values, table, most):
    """The last table on the way from the values through a table."""
    return last(job, table, [x - table.d * v for x, v in zip(table.x, values)], most)

def random_tables(dice, job, values, best, most, gap):
    """For each table shaken out of the best one: the last on the way from the best through it, and the last on the way from the values through the
    middle of that and the best."""
    for kind in KINDS * 3:
        found = shaken(dice, kind, job, best, gap)
        if found:
            end = last(job, best, [y - x for x, y in zip(best.x, found.x)], most)
            yield end
            yield opposite(job, values, middle(best, end), most)
