"""The house proposal's outcomes, computed apart from the crates, from document 01 ("The house proposal") and W-205 alone.

A Python float is an IEEE double, and each operation on it is rounded once: no multiply-add is fused. The matrix is made from all differences
as whole numbers, without a band. `tests/cases/expect.py` runs and stores the cases made here.
"""
import math
from fractions import Fraction
from packs import Job, Refused, house_case, job_of, proposal_pack
from verdict import differences

ROOM = 1024
COLUMNS = 12

# ---- the house proposal

def matrix(job, differences=differences):
    """W + kK'K, where K'K of a grid has a part for each direction with its own constant."""
    n = len(job.cells)
    a = [[0] * n for _ in range(n)]
    for i, (_, w, _, _) in enumerate(job.cells):
        a[i][i] = w
    for constant, terms in differences(job):
        for c, s in terms:
            for d, t in terms:
                a[c][d] += constant * s * t
    return a

def values(job):
    """The values before rounding, or the cell that is thin."""
    return solved(matrix(job), job.shape.down * job.shape.columns, [u * w for u, w, _, _ in job.cells])

def solved(a, z, right):
    """The same of a matrix, by the steps of a band z wide; the band of a grid has zeros in it, and the steps go over them."""
    n = len(a)
    low = [[0.0] * n for _ in range(n)]
    d = [0.0] * n
    for j in range(n):
        first = max(0, j - z)
        for i in range(first, j):
            x = float(a[j][i])
            for m in range(first, i):
                x = x - (low[j][m] * d[m]) * low[i][m]
            low[j][i] = x / d[i]
        x = float(a[j][j])
        for m in range(first, j):
            x = x - (low[j][m] * d[m]) * low[j][m]
        d[j] = x
        if not x > 1 / 1024:
            return None, j
    y = [0.0] * n
    for j in range(n):
        x = float(right[j])
        for m in range(max(0, j - z), j):
            x = x - low[j][m] * y[m]
        y[j] = x
    v = [y[j] / d[j] for j in range(n)]
    for j in reversed(range(n)):
        x = v[j]
        for m in range(j + 1, min(n - 1, j + z) + 1):
            x = x - low[m][j] * v[m]
        v[j] = x
    return v, None

def rounded(v, lo, hi):
    if not v > lo:
        return lo
    if not v < hi:
        return hi
    return math.floor(Fraction(v) + Fraction(1, 2))

def outcome(job, room):
    """Number, place and, where it is done, the bytes of the proposal pack, for a job that was read."""
    if job.shape.columns > COLUMNS:
        return [20, 0]
    v, thin = values(job)
    if v is None:
        return [10, thin]
    out = proposal_pack([rounded(x, lo, hi) for x, (_, _, lo, hi) in zip(v, job.cells)], [0] * len(job.links))
    return [13, len(out)] if len(out) > room else [0, len(out), *out]

def answered(pack, room):
    """The same for any job pack."""
    try:
        return outcome(job_of(pack), room)
    except Refused as refused:
        return list(refused.args)

# ---- the cases

class Dice:
    def __init__(self, seed):
        self.state = seed

    def upto(self, most):
        self.state = (self.state * 6364136223846793005 + 1442695040888963407) % 2**64
        return (self.state >> 33) % (most + 1)

def table(dice, n, rates=1000000, weights=1000, gaps=0):
    """Cells of a smooth table with noise; one weight in `gaps` is 0."""
    cells = []
    for i in range(n):
        u = min(rates, rates * (i + 1) // (2 * n) + dice.upto(rates // 4))
        w = 0 if gaps and dice.upto(gaps) == 0 else 1 + dice.upto(weights - 1)
        lo = dice.upto(u)
        cells.append((u, w, lo, lo + dice.upto(rates - lo)))
    return cells

def chain(n, count):
    return [([(i % (n - 1), 1), (i % (n - 1) + 1, -1)], 0) for i in range(count)]

def on_a_half(dice, order):
    """A job of the order with a value that falls on a half exactly, inside its box."""
    while True:
        job = Job(order, 1 + dice.upto(7), [(dice.upto(20), 1 + dice.upto(7), 0, 100) for _ in range(order + 2)])
        v, thin = values(job)
        if v is not None and any(0 < x < 100 and x - math.floor(x) == 0.5 for x in v):
            return job

def proposed():
    """Jobs of all orders, each with its room."""
    thin = Job(2, 1000, [(0, 1, 0, 100)] * 2 + [(0, 0, 0, 100)] * 118)
    made = [(thin, ROOM)]
    dice = Dice(1)
    for order in (1, 2, 3, 4):
        made.append((Job(order, 1 + dice.upto(9), table(dice, order + 1, 100, 3)), ROOM))
        made.append((Job(order, 1 + dice.upto(999), table(dice, 30, 1000, gaps=3)), ROOM))
        made.append((Job(order, 1 + dice.upto(999), table(dice, 120, gaps=5), chain(120, 40 * order)), ROOM))
        made.append((Job(order, 1, [(u, w, 0, 1000000) for u, w, _, _ in table(dice, 60)]), ROOM))
        made.append((Job(order, 1000, [(u, 1, 0, 1000000) for u, _, _, _ in table(dice, 120)]), ROOM))
    made.append((Job(0, 20, table(dice, 12, 5000)), ROOM))
    made.append((Job(2, 1, [(0, 1, 0, 100), (7, 1, 0, 100), (0, 1, 0, 100)]), ROOM))
    made.append((Job(1, 7, [(50, 2, 40, 40), (10, 3, 60, 70), (90, 1, 0, 5)]), ROOM))
    made += [(on_a_half(dice, 1), ROOM), (on_a_half(dice, 2), ROOM)]
    short = Job(3, 10, table(dice, 20, 900000))
    size = outcome(short, ROOM)[1]
    made += [(short, size - 1), (short, size), (thin, 0)]
    return made

def refused():
    """Job packs that cannot be read, each with the number and place that document 01 gives."""
    cell, three = (5, 1, 0, 9), [(5, 1, 0, 9)] * 3
    spare = Job(2, 1, three).pack()
    return [
        (b'', [1, 0]),
        (spare + b'\0', [1, len(spare)]),
        (Job(0, 1, [cell] * 2).pack(), [2, 3]),
        (Job(2, 1, three, society=8).pack(), [2, 0]),
        (Job(2, 1, [cell, (5, 1, 9, 8), cell]).pack(), [3, 1]),
        (Job(2, 1, [cell, (5, 0, 0, 9), (5, 0, 0, 9)]).pack(), [4, 0]),
        (Job(2, 1, three, [([(0, 1), (1, -1)], 0), ([(1, 1), (1, 1)], 0)]).pack(), [5, 1]),
    ]

def cases():
    return [house_case(job.pack(), room) for job, room in proposed()]
