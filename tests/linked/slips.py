"""Ways to make a proposal that honours links which are wrong and look right: the random calls have to tell each of them."""
from fractions import Fraction
from passes import Passes, divided
from verdict import gap, verdict

class BelowZero(Passes):
    """A multiplier may fall below 0."""
    def multiplier(self, mu, e, c):
        return mu + divided(2.0 * e, c)

class FallingLinks(Passes):
    """Links in falling order."""
    def order(self):
        return reversed(super().order())

class WholeChange(Passes):
    """The values fall by the whole change in place of half."""
    def change(self, mu, new):
        return new - mu

class TwoLost(Passes):
    """The 2 of 2(s-b)/c lost."""
    def multiplier(self, mu, e, c):
        t = mu + divided(e, c)
        return t if t > 0 else 0.0

class NotItself(Passes):
    """The multiplier becomes 2(s-b)/c alone, without itself."""
    def multiplier(self, mu, e, c):
        return super().multiplier(0.0, e, c)

class OnlyRising(Passes):
    """A multiplier never falls."""
    def multiplier(self, mu, e, c):
        return max(mu, super().multiplier(mu, e, c))

class BoundForgotten(Passes):
    """The bound taken for 0."""
    def excess(self, terms, b):
        return super().excess(terms, 0)

class SquaresForC(Passes):
    """c of the coefficients alone, without the solution."""
    def __init__(self, job):
        super().__init__(job)
        self.c = [float(sum(a * a for _, a in terms)) for terms, _ in job.links]

class CrudeStart(Passes):
    """The values start at the crude rates."""
    def __init__(self, job):
        super().__init__(job)
        self.v = [float(u) for u, _, _, _ in job.cells]

class NoWeights(Passes):
    """The values start at the solution with u on the right in place of wu."""
    def start(self):
        return [u for u, _, _, _ in self.job.cells]

class FromTheSameValues(Passes):
    """Every link of a pass looks at the values before the pass."""
    def make(self):
        before, fallen = self.v, list(self.v)
        for l in self.order():
            self.v = before
            self.improve(l)
            fallen = [x + (after - y) for x, after, y in zip(fallen, self.v, before)]
        self.v = fallen

class RoundedGoesOn(Passes):
    """The rounded values go on to the next pass."""
    def table(self):
        values, multipliers = super().table()
        self.v = [float(x) for x in values]
        return values, multipliers

class RoundedMultipliersGoOn(Passes):
    """The rounded multipliers go on to the next pass."""
    def table(self):
        values, multipliers = super().table()
        self.mu = [float(y) for y in multipliers]
        return values, multipliers

class MultipliersDown(Passes):
    """Multipliers rounded down."""
    def table(self):
        return super().table()[0], [min(10 ** 9, int(y)) for y in self.mu]

class NoMultipliers(Passes):
    """Multipliers 0, as the house proposal has them."""
    def table(self):
        return super().table()[0], [0] * len(self.mu)

class LastAccepted(Passes):
    """The last accepted pass in place of the first."""
    def proposal(self, given):
        found = 0, None
        for count in range(1, given + 1):
            self.make()
            table = self.table()
            if self.accepted(table):
                found = count, table
        return found

class PassZero(Passes):
    """The house proposal asked for first, as pass 0."""
    def proposal(self, given):
        table = self.table()
        return (0, table) if self.accepted(table) else super().proposal(given)

class HouseFirst(Passes):
    """The house proposal handed out with count 1 where it is accepted."""
    def proposal(self, given):
        table = self.table()
        return (1, table) if self.accepted(table) else super().proposal(given)

class OnePassMore(Passes):
    """A pass more than the number given."""
    def proposal(self, given):
        return super().proposal(given + 1)

class GapAlone(Passes):
    """Broken links not asked for."""
    def accepted(self, table):
        return gap(self.job, *table) <= self.job.tolerance

class LinksAlone(Passes):
    """A gap above the tolerance not asked for."""
    def accepted(self, table):
        return verdict(self.job, *table)[0] in (0, 9)

# ---- slips of the last bit

def fused(a, x, y):
    """a + xy rounded once."""
    return float(Fraction(a) + Fraction(x) * Fraction(y))

class FallingTerms(Passes):
    """The terms of a link added in falling order."""
    def sum(self, terms, over):
        return super().sum(terms[::-1], over)

class FusedSum(Passes):
    """A link's sum fused."""
    def sum(self, terms, over):
        s = 0.0
        for cell, a in terms:
            s = fused(s, float(a), over[cell])
        return s

class FusedFall(Passes):
    """The fall of the values fused."""
    def fallen(self, v, h, x):
        return [fused(a, -h, b) for a, b in zip(v, x)]

class BoundFirst(Passes):
    """The bound taken away before the sum."""
    def excess(self, terms, b):
        e = -float(b)
        for cell, a in terms:
            e = e + float(a) * self.v[cell]
        return e

class ByTheReciprocal(Passes):
    """A multiplication by 1/c in place of the division."""
    def multiplier(self, mu, e, c):
        t = mu + 2.0 * e * divided(1.0, c)
        return t if t > 0 else 0.0

LARGE = (BelowZero, FallingLinks, WholeChange, TwoLost, NotItself, OnlyRising, BoundForgotten, SquaresForC, CrudeStart, NoWeights, FromTheSameValues,
         RoundedGoesOn, RoundedMultipliersGoOn, MultipliersDown, NoMultipliers, LastAccepted, PassZero, HouseFirst, OnePassMore, GapAlone, LinksAlone)
LAST_BIT = (FallingTerms, FusedSum, FusedFall, BoundFirst, ByTheReciprocal)
