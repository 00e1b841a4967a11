"""The proposal that honours links, computed apart from the crates, from document 02 (W-207) and the order of operations of docs/LINKED.md alone.

A Python float is an IEEE double, and each operation on it is rounded once: no multiply-add is fused. Division by 0, which Python refuses, is IEEE's.
"""
import math
import sys
from pathlib import Path

sys.path.insert(0, str(Path(__file__).resolve().parents[1]))
from house.expect import COLUMNS, matrix, rounded
from packs import Refused, job_of, proposal_pack
from verdict import verdict

MOST_PASSES, MOST_MULTIPLIER = 200, 10 ** 9
ANSWER_WORDS = 4

# ---- the factor of document 01, apart from its right side

class Factor:
    """L and d of a job, or its refusal. The band of a grid is its order down times its columns, zeros in it included."""

    def __init__(self, job):
        if job.shape.columns > COLUMNS:
            raise Refused(20, 0)
        self.n, self.z, a = len(job.cells), job.shape.down * job.shape.columns, matrix(job)
        self.low, self.d = [[0.0] * self.n for _ in range(self.n)], []
        for j in range(self.n):
            self.add_row(a[j], j)

    def add_row(self, entries, j):
        low, d, row, first = self.low, self.d, self.low[j], max(0, j - self.z)
        for i in range(first, j):
            x, above = float(entries[i]), low[i]
            for m in range(first, i):
                x = x - (row[m] * d[m]) * above[m]
            row[i] = x / d[i]
        x = float(entries[j])
        for m in range(first, j):
            x = x - (row[m] * d[m]) * row[m]
        if not x > 1 / 1024:
            raise Refused(10, j)
        d.append(x)

    def solution(self, right):
        """Forward, division, backward, over the whole band."""
        n, z, low = self.n, self.z, self.low
        y = [float(x) for x in right]
        for j in range(n):
            x, row = y[j], low[j]
            for m in range(max(0, j - z), j):
                x = x - row[m] * y[m]
            y[j] = x
        v = [y[j] / self.d[j] for j in range(n)]
        for j in reversed(range(n)):
            x = v[j]
            for m in range(j + 1, min(n - 1, j + z) + 1):
                x = x - low[m][j] * v[m]
            v[j] = x
        return v

# ---- passes

def divided(a, b):
    """IEEE's a over b, where Python refuses 0."""
    if b != 0:
        return a / b
    return math.nan if a == 0 or math.isnan(a) else math.copysign(math.inf, a) * math.copysign(1, b)

class Passes:
    """The values before rounding and the multipliers of a job, pass by pass. A wrong variant (slips.py) has another method in place of one of these."""

    def __init__(self, job):
        self.job, factor = job, Factor(job)
        self.v, self.mu = factor.solution(self.start()), [0.0] * len(job.links)
        self.x = [factor.solution(self.right(terms)) for terms, _ in job.links]
        self.c = [self.sum(terms, x) for (terms, _), x in zip(job.links, self.x)]

    def start(self):
        return [u * w for u, w, _, _ in self.job.cells]

    def right(self, terms):
        """The coefficients of a link in its cells."""
        coefficient = dict(terms)
        return [coefficient.get(i, 0) for i in range(len(self.job.cells))]

    def sum(self, terms, over):
        s = 0.0
        for cell, a in terms:
            s = s + float(a) * over[cell]
        return s

    def order(self):
        return range(len(self.job.links))

    def multiplier(self, mu, e, c):
        t = mu + divided(2.0 * e, c)
        return t if t > 0 else 0.0

    def change(self, mu, new):
        return 0.5 * (new - mu)

    def fallen(self, v, h, x):
        return [a - h * b for a, b in zip(v, x)]

    def excess(self, terms, b):
        return self.sum(terms, self.v) - float(b)

    def improve(self, l):
        new = self.multiplier(self.mu[l], self.excess(*self.job.links[l]), self.c[l])
        self.v = self.fallen(self.v, self.change(self.mu[l], new), self.x[l])
        self.mu[l] = new

    def make(self):
        """One pass."""
        for l in self.order():
            self.improve(l)

    def table(self):
        """Values and multipliers as they are proposed after a pass."""
        return ([rounded(x, lo, hi) for x, (_, _, lo, hi) in zip(self.v, self.job.cells)], [rounded(y, 0, MOST_MULTIPLIER) for y in self.mu])

    def accepted(self, table):
        return verdict(self.job, *table)[0] == 0

    def proposal(self, given):
        """The count of the first accepted pass and its table, or 0 and none."""
        for count in range(1, given + 1):
            self.make()
            table = self.table()
            if self.accepted(table):
                return count, table
        return 0, None

# ---- the call

def outcome(pack, given, room, passes=Passes):
    """Number, place, count of passes and bytes, with an answer slice as it should be."""
    if not 1 <= given <= MOST_PASSES:
        return 21, 0, 0, b''
    try:
        count, table = passes(job_of(pack)).proposal(given)
    except Refused as refused:
        return *refused.args, 0, b''
    if table is None:
        return 14, given, 0, b''
    out = proposal_pack(*table)
    return (0, len(out), count, out) if len(out) <= room else (13, len(out), 0, b'')
