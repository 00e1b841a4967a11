"""Other tables that are tried beside an accepted one, and what W-208 says of each of them.

If a table is accepted with F and G, the farness from it of any table that meets the job with a loss of at most F is at most 4*G. So a rate of positive
weight w is off by at most r, for each whole r with w*r^2 at least 4*G; and no rate is off by more than its box allows."""
from fractions import Fraction
from solver.parts import scaled_loss
from solver.ways import opposite, random_tables
from verdict import farness, least_off

class Other:
    """Another table: by how many parts each rate is off the accepted one, the farness, and the loss."""

    def __init__(self, job, values, table):
        self.table, self.off = table, [x - table.d * v for x, v in zip(table.x, values)]
        self.farness = Fraction(farness(job, self.off), table.d ** 2)
        self.loss = Fraction(scaled_loss(job, table), table.d ** 2)

    def same(self, other):
        return all(x * other.table.d == y * self.table.d for x, y in zip(self.table.x, other.table.x))

class Tried:
    """A job with its accepted table, F and G, and the tables that are tried beside it: the best or one near it, the one opposite, and random ones."""

    def __init__(self, dice, job, values, told_loss, told_gap, best):
        self.job, self.values, self.loss, self.gap = job, values, told_loss, told_gap
        self.best, self.opposite = self.other(best), self.other(opposite(job, values, best, told_loss))
        self.random = [self.other(table) for table in random_tables(dice, job, values, best, told_loss, told_gap)]

    def other(self, table):
        return Other(self.job, self.values, table)

    def others(self):
        return [self.best, self.opposite, *self.random]

    def room(self):
        """How much above the best table's the loss is."""
        return self.loss - self.best.loss

# ---- the statement

def together(tried, other, times=4):
    return other.farness <= times * tried.gap

def by_weight(tried, other, times=4):
    return all(abs(x) <= other.table.d * least_off(w, times * tried.gap) for x, (_, w, _, _) in zip(other.off, tried.job.cells) if w > 0)

def by_box(tried, other, end=max):
    return all(abs(x) <= other.table.d * end(v - lo, hi - v) for x, v, (_, _, lo, hi) in zip(other.off, tried.values, tried.job.cells))
