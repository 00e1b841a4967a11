"""Constrained jobs from dice: every link's bound is made from a whole table inside all boxes, so each job has a table that meets it."""
import math
from packs import Grid, Job

SHAPES = ('rising', 'waving', 'rough')
BOXES = ('wide', 'around', 'tight', 'mixed')
LINKS = ('rising', 'step', 'bend', 'ceiling', 'floor', 'any')

def curve(dice, n, most):
    """So many whole rates up to `most`."""
    kind = dice.choice(SHAPES)
    if kind == 'rising':
        bend = dice.uniform(0.5, 5)
        return [round(most * (0.02 + 0.9 * math.expm1(bend * i / n) / math.expm1(bend))) for i in range(n)]
    if kind == 'waving':
        turns = dice.uniform(0.5, 3)
        return [round(most * (0.5 + 0.4 * math.sin(2 * math.pi * turns * i / n))) for i in range(n)]
    out = [dice.randint(0, most)]
    while len(out) < n:
        out.append(min(most, max(0, out[-1] + dice.randint(-most // 10, most // 10))))
    return out

def rates(dice, shape, most):
    """A whole table of rates up to `most`: in a grid the mean of a curve down the columns and one along the rows."""
    down = curve(dice, shape.rows, most)
    if shape.columns == 1:
        return down
    across = curve(dice, shape.columns, most)
    return [(x + y) // 2 for x in down for y in across]

def held(dice, shape):
    """Cells whose weights are positive, so that the rows that refusal 4 counts are enough."""
    rows = dice.sample(range(shape.rows), shape.down)
    if shape.columns == 1:
        return set(rows)
    return {row * shape.columns + column for row in rows for column in dice.sample(range(shape.columns), shape.across)}

def weights(dice, shape):
    """Weights with zeros among them, and enough positive ones."""
    most, zeros = dice.choice((1, 10, 1000)), dice.choice((0, 0.15, 0.5))
    positive = held(dice, shape)
    return [dice.randint(1, most) if i in positive or dice.random() >= zeros else 0 for i in range(shape.rows * shape.columns)]

def box(dice, kind, rate, most):
    """A floor and a ceiling with the rate between them; of mixed boxes some have room for it alone."""
    if kind == 'mixed':
        kind = dice.choice(('wide', 'around', 'tight', 'alone'))
    if kind == 'alone':
        return rate, rate
    if kind == 'wide':
        return 0, min(1000000, dice.choice((2 * most, 1000000)))
    room = max(1, most // (10 if kind == 'around' else 100))
    return max(0, rate - dice.randint(0, room)), min(1000000, rate + dice.randint(0, room))

def runs(shape, count):
    """Every so many cells that follow one another down a column or along a row."""
    rows, columns = shape.rows, shape.columns
    down = [[(row + m) * columns + column for m in range(count)] for row in range(rows - count + 1) for column in range(columns)]
    across = [[row * columns + column + m for m in range(count)] for row in range(rows) for column in range(columns - count + 1)]
    return sorted(down + across)

def terms(dice, kind, shape):
    """The terms of a link; its bound comes from the table."""
    if kind in ('rising', 'step'):
        coefficients = (1, -1) if kind == 'rising' else (-1, 1)
        return list(zip(dice.choice(runs(shape, 2)), coefficients))
    bends = runs(shape, 3)
    if kind == 'bend' and bends:
        run, side = dice.choice(bends), dice.choice((1, -1))
        return list(zip(run, (side, -2 * side, side)))
    n = shape.rows * shape.columns
    cells = sorted(dice.sample(range(n), dice.randint(1, min(4, n))))
    if kind == 'any':
        return [(c, dice.choice((-1, 1)) * dice.randint(1, 10)) for c in cells]
    return [(c, -1 if kind == 'floor' else 1) for c in cells]

def room(dice, most):
    """How much a bound is above the table's sum: nothing, a little, or so much that the link is slack."""
    return dice.choice((0, 0, dice.randint(0, max(1, most // 50)), dice.randint(0, most)))

def chain(shape, table):
    """A link for each two neighbours that rise in the table: the values rise there too."""
    return [([(i, 1), (j, -1)], 0) for i, j in runs(shape, 2) if table[i] <= table[j]]

def again(dice, link):
    """A link that says no more than the one given."""
    given, b = link
    if all(abs(s) <= 5 for _, s in given) and dice.random() < 0.5:
        return [(c, 2 * s) for c, s in given], 2 * b
    return given, b + dice.randint(0, 3)

def links(dice, shape, table, most, count):
    """So many links; about one in ten says no more than an earlier one."""
    out = chain(shape, table)[:count] if dice.random() < 0.5 else []
    kinds = dice.sample(LINKS, 3)
    while len(out) < count:
        if out and dice.random() < 0.1:
            out.append(again(dice, dice.choice(out)))
            continue
        given = terms(dice, dice.choice(kinds), shape)
        out.append((given, sum(s * table[c] for c, s in given) + room(dice, most)))
    return out

def constant(dice, most):
    return dice.choice((1, dice.randint(1, min(30, most)), dice.randint(1, most), most))

def constants(dice, form):
    """The form with its second constant if it is a grid, and k."""
    if not isinstance(form, Grid):
        return form, constant(dice, 1000)
    one = constant(dice, 999)
    other = constant(dice, 1000 - one)
    second, k = dice.choice(((one, other), (other, one)))
    return form._replace(second=second), k

def job(dice, n, form, count):
    """A job of n cells with so many links, of a form that is an order field or a grid; its tolerance is not set, nor a grid's second constant before."""
    shape = Job(form, 1, [None] * n).shape
    most = dice.choice((30, 1000, 50000, 500000, 1000000))
    noise = dice.choice((0.02, 0.1, 0.3))
    kind = dice.choice(BOXES)
    table = rates(dice, shape, most)
    cells = []
    for rate, w in zip(table, weights(dice, shape)):
        crude = round(rate + noise * most * dice.uniform(-1, 1))
        cells.append((min(1000000, max(0, crude)), w, *box(dice, kind, rate, most)))
    form, k = constants(dice, form)
    return Job(form, k, cells, links(dice, shape, table, most, count))
