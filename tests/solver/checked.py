"""The solver's jobs as they are stored, each with its proposal, its line and what the solver found: the last part of crates/cases."""
import sys
import packs
from solver.optima import optima, tables
from solver.parts import Table

class Checked:
    """A job of the input with its proposal, the line that was printed, the solver's optimum and its table."""

    def __init__(self, case, line, optimum, table):
        job, proposal = packs.parts_of(case)
        self.job = packs.job_of(job)
        self.values, self.multipliers = packs.proposal_of(proposal, self.job)
        self.told, self.optimum = [int(x) for x in line.split()], optimum
        d, off = table
        self.table = Table(d, [d * v + x for v, x in zip(self.values, off, strict=True)])

    def accepted(self):
        return self.told[0] == 0

def checked_jobs():
    stored, found, cases, lines = optima(), tables(), packs.cut(packs.STDIN.read_bytes()), packs.STDOUT.read_text().splitlines()
    if not stored or len(stored) != len(found) or len(cases) != len(lines):
        sys.exit('the stored cases, lines, optima and tables do not belong together')
    return [Checked(*x) for x in zip(cases[-len(stored):], lines[-len(stored):], stored, found)]
