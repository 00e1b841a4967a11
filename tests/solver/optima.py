"""What the solver found, as it is stored: one line a job, in the order of their cases. tests/solver/optima has the least losses, tests/solver/tables a
table near the best."""
from fractions import Fraction
from pathlib import Path

OPTIMA = Path(__file__).resolve().with_suffix('')
TABLES = OPTIMA.with_name('tables')
NEAR = Fraction(1, 10 ** 7)

def near(figure, lower, upper):
    """Whether the solver's own figure, which is a rounded one, lies by the interval."""
    room = NEAR * (upper + 1)
    return lower <= upper and lower - room <= figure <= upper + room

class Optimum:
    """What a line says: society, job, cells, order field, links, the solver's own figure, and an interval that holds the least loss."""

    def __init__(self, line):
        fields = line.split()
        self.named = [int(x) for x in fields[:5]]
        self.figure, self.lower, self.upper = (Fraction(x) for x in fields[5:])

def texts(path=OPTIMA):
    """The stored lines."""
    return [line for line in path.read_text().splitlines() if not line.startswith('#')] if path.exists() else []

def optima():
    return [Optimum(text) for text in texts()]

def tables():
    """For each job d, and by how many parts of 1/d each rate of the solver's table is off the proposal's."""
    return [(d, off) for d, *off in ([int(x) for x in text.split()] for text in texts(TABLES))]
