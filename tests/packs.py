"""Jobs, their packs (document 01, "Packs", and W-205) and cases as bytes, for the scripts beside: what they write, the program of crates/cases reads.

A case is a kind, two sizes of two bytes each, low byte first, and its packs. A house proposal has the size of the job pack, the room for the
proposal, and the job pack; a check has the sizes of both packs, the job pack and the proposal pack.
"""
from pathlib import Path
from typing import NamedTuple

ROOT = Path(__file__).resolve().parents[1]
STDIN = ROOT / 'crates' / 'cases' / 'stdin'
STDOUT = ROOT / 'crates' / 'cases' / 'stdout'
HOUSE, CHECK = 0, 1
GRID = 5
MOST_INPUT = 8192

# ---- jobs, and how they are written

class Grid(NamedTuple):
    """The new fields of W-205, in pack order: after the order field 5 and before k."""
    rows: int
    columns: int
    down: int
    across: int
    second: int

class Job:
    """A job: its cells are (crude rate, weight, floor, ceiling), its links (terms, bound), its terms (cell, coefficient). Its form is the order
    field of a line, or a Grid. The shape is that grid; a line's is one column with its order down, in which no row has a difference."""

    def __init__(self, form, k, cells, links=(), society=3, job=7, tolerance=0):
        self.society, self.job, self.k, self.tolerance = society, job, k, tolerance
        self.cells, self.links = list(cells), list(links)
        line = not isinstance(form, Grid)
        self.order = form if line else GRID
        self.shape = Grid(len(self.cells), 1, form or 2, 1, 0) if line else form

    def is_grid(self):
        return self.order == GRID

    def too_thin(self):
        """Refusal 4: fewer rows than the order down hold at least the order across of positive weights."""
        columns = self.shape.columns
        held = [0] * self.shape.rows
        for i, (_, w, _, _) in enumerate(self.cells):
            held[i // columns] += w > 0
        return sum(count >= self.shape.across for count in held) < self.shape.down

    def head(self):
        """The numbers before the first cell."""
        new = self.shape if self.is_grid() else ()
        return [self.society, self.job, len(self.cells), self.order, *new, self.k, self.tolerance]

    def pack(self):
        out = numbers(self.head()) + b''.join(numbers(cell) for cell in self.cells) + number(len(self.links))
        for terms, b in self.links:
            out += number(len(terms)) + b''.join(number(c) + signed(s) for c, s in terms) + signed(b)
        return out

def number(x):
    out = []
    while x >= 128:
        out.append(x % 128 + 128)
        x //= 128
    return bytes(out + [x])

def numbers(several):
    return b''.join(number(x) for x in several)

def signed(x):
    return number(2 * x if x >= 0 else -2 * x - 1)

def proposal_pack(values, multipliers):
    return numbers([*values, *multipliers])

# ---- how packs are read

class Refused(Exception):
    """Why a pack cannot be read: number and place."""

class Reader:
    """The numbers of a pack, one after the other: each is read in its shortest form (1) and then tested (2)."""

    def __init__(self, pack):
        self.pack, self.at = pack, 0

    def number(self, allowed):
        start, x = self.at, 0
        for group, byte in enumerate(self.pack[start:start + 9]):
            x += byte % 128 << 7 * group
            if byte < 128:
                break
        else:
            raise Refused(1, start)
        if group > 0 and byte == 0:
            raise Refused(1, start)
        if x not in allowed:
            raise Refused(2, start)
        self.at = start + group + 1
        return x

    def upto(self, most):
        return self.number(range(most + 1))

    def signed(self, most):
        x = self.upto(2 * most)
        return x // 2 if x % 2 == 0 else -(x + 1) // 2

    def end(self):
        if self.at < len(self.pack):
            raise Refused(1, self.at)

def grid_of(read, n):
    """The fields that order field 5 announces: rows are tested alone, the product at columns."""
    rows = read.number(range(2, 2 ** 63))
    columns = read.number([x for x in range(2, n + 1) if rows * x == n])
    down, across = (read.number(range(1, min(5, length))) for length in (rows, columns))
    return Grid(rows, columns, down, across, read.number(range(1, 1000)))

def cell_of(read, i):
    u, w, lo, hi = (read.upto(most) for most in (10 ** 6, 1000, 10 ** 6, 10 ** 6))
    if lo > hi:
        raise Refused(3, i)
    return u, w, lo, hi

def link_of(read, n, j):
    terms = []
    for _ in range(read.number(range(1, 5))):
        cell, coefficient = read.upto(n - 1), read.signed(10)
        if coefficient == 0 or (terms and cell <= terms[-1][0]):
            raise Refused(5, j)
        terms.append((cell, coefficient))
    return terms, read.signed(10 ** 9)

def job_of(pack):
    """The job of a pack, or the first refusal in pack order."""
    read = Reader(pack)
    society, named, n = read.upto(7), read.upto(2 ** 32 - 1), read.number(range(2, 121))
    order = read.number([x for x in range(GRID + 1) if x == GRID or (x or 2) < n])
    form = grid_of(read, n) if order == GRID else order
    k = read.number(range(1, 1001 - (form.second if order == GRID else 0)))
    tolerance = read.upto(10 ** 15)
    job = Job(form, k, [cell_of(read, i) for i in range(n)], (), society, named, tolerance)
    if job.too_thin():
        raise Refused(4, 0)
    job.links = [link_of(read, n, j) for j in range(read.upto(160))]
    read.end()
    return job

def proposal_of(pack, job):
    """The values and multipliers of a proposal pack: every refusal of it is 6."""
    read = Reader(pack)
    try:
        values, multipliers = [read.upto(10 ** 6) for _ in job.cells], [read.upto(10 ** 9) for _ in job.links]
        read.end()
    except Refused as refused:
        raise Refused(6, refused.args[1])
    return values, multipliers

def packs_of(given):
    """The two packs of an input of the checking program."""
    read = Reader(given)
    length = read.upto(len(given))
    if length > len(given) - read.at or len(given) > MOST_INPUT:
        raise Refused(1, 0)
    return given[read.at:read.at + length], given[read.at + length:]

# ---- cases

def case(kind, first, second, *packs):
    return bytes([kind]) + first.to_bytes(2, 'little') + second.to_bytes(2, 'little') + b''.join(packs)

def house_case(job, room):
    return case(HOUSE, len(job), room, job)

def check_case(job, proposal):
    return case(CHECK, len(job), len(proposal), job, proposal)

def sizes(given, at=0):
    return [int.from_bytes(given[at + i:at + i + 2], 'little') for i in (1, 3)]

def cut(given):
    """The cases of an input."""
    out, at = [], 0
    while at < len(given):
        first, second = sizes(given, at)
        end = at + 5 + first + (second if given[at] == CHECK else 0)
        out.append(given[at:end])
        at = end
    return out

def parts_of(case):
    """The job pack of a case, and the room of a house proposal or the proposal pack of a check."""
    first, second = sizes(case)
    return case[5:5 + first], second if case[0] == HOUSE else case[5 + first:]
