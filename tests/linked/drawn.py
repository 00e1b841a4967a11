"""Random calls for a proposal that honours links: jobs whose tolerance is the gap of one of their passes, and calls that are refused.
"""
from random import Random
from typing import NamedTuple
from packs import Grid, Job, Refused
from passes import ANSWER_WORDS, MOST_PASSES, Passes
from solver.jobs import job as with_table
from verdict import gap, term_sum

SEED = 207
SMALL, LINES, GRIDS, SLOW, DAMAGED = 2500, 150, 120, 70, 400
ROOM = 1160
MOST_TOLERANCE = 10 ** 15

class Call(NamedTuple):
    """What the call is given: a job pack, the passes, the room of the output and the words of the answer slice."""
    pack: bytes
    passes: int
    room: int = ROOM
    words: int = ANSWER_WORDS

    def line(self):
        return f'x{self.pack.hex()} {self.passes} {self.room} {self.words}'

def call_of(line):
    pack, *numbers = line.split()
    return Call(bytes.fromhex(pack[1:]), *map(int, numbers))

# ---- jobs

def any_link(dice, n, most):
    """One that may not be met by any table."""
    cells = sorted(dice.sample(range(n), dice.randint(1, min(4, n))))
    return [(cell, dice.choice((-10, -3, -2, -1, -1, 1, 1, 2, 3, 10))) for cell in cells], dice.choice((0, 1, most, dice.randint(-most, most)))

def orderings(n, columns=1):
    """No value falls from a cell to the next one down its column."""
    return [([(i, 1), (i + columns, -1)], 0) for i in range(n - columns)]

def small(dice):
    """A very small line with small numbers."""
    n, most = dice.randint(2, 5), dice.choice((9, 20, 100))
    cells = [(dice.randint(0, most), dice.choice((1, 1, 1, 2, 3)), *dice.choice(((0, most), (0, most), (1, most), (most // 3, most)))) for _ in range(n)]
    links = orderings(n) if dice.random() < 0.2 else [any_link(dice, n, most) for _ in range(dice.choice((0, 1, 1, 2, 3, 5)))]
    return Job(dice.randint(1, min(4, n - 1)), dice.choice((1, 1, 2, 7)), cells, links)

def on_a_half(dice):
    """A very small line with a longer link, whose first pass brings a value or a multiplier to a half, but for its last bits: these decide how it is rounded."""
    while True:
        job = small(dice)
        if any(len(terms) > 2 for terms, _ in job.links):
            made = Passes(job)
            made.make()
            if any(x > 0 and abs(x % 1 - 0.5) < 1e-9 for x in made.v + made.mu):
                return job

def line(dice):
    n = dice.choice((6, 8, 12, 20, 40))
    order = dice.randint(0, 4)
    return with_table(dice, n, order, dice.randint(0, min(160, n + n // 2)))

def grid(dice):
    columns = dice.choice((2, 2, 3, 4, 6, 12))
    rows = dice.choice([x for x in (2, 3, 5, 8) if x * columns <= 36])
    down, across = (dice.randint(1, min(4, length - 1)) for length in (rows, columns))
    n = rows * columns
    return with_table(dice, n, Grid(rows, columns, down, across, 0), dice.randint(0, n + n // 2))

def slow(dice):
    """Crude rates that fall all the way down, and orderings that forbid it: with a large constant each pass comes only a little nearer."""
    columns = dice.choice((1, 1, 2, 3))
    rows = dice.choice((8, 14, 20)) if columns == 1 else dice.choice((5, 6))
    most, down = dice.choice((1000, 100000)), dice.randint(1, 3)
    rates = [most - most * row // rows + dice.randint(0, most // 20) for row in range(rows) for _ in range(columns)]
    form = down if columns == 1 else Grid(rows, columns, down, 1, dice.choice((1, 100)))
    return Job(form, dice.choice((5, 200, 900)), [(u, dice.randint(1, 2), 0, 10 ** 6) for u in rates], orderings(rows * columns, columns))

def largest(dice):
    """As many cells and links as there can be."""
    return with_table(dice, 120, 4, 160), with_table(dice, 120, Grid(10, 12, 4, 4, 0), 160)

def thin(dice, form, n):
    """Weights in the first rows alone."""
    shape = Job(form, 1, [None] * n).shape
    cells = [(dice.randint(0, 9), int(i < shape.down * shape.columns), 0, 100) for i in range(n)]
    return Job(form, 1000 - shape.second, cells, orderings(n))

# ---- tolerances

def gaps(job, passes):
    """The gap of each pass whose table meets every link, with its count; none where the data is too thin."""
    try:
        made, out = Passes(job), []
    except Refused:
        return []
    for count in range(1, passes + 1):
        made.make()
        values, multipliers = made.table()
        if all(term_sum(terms, values) <= b for terms, b in job.links):
            out.append((gap(job, values, multipliers), count))
    return out

def records(found):
    """Those below all before them: with such a tolerance its pass is the first that is accepted."""
    out = []
    for own, count in found:
        if not out or own < out[-1][0]:
            out.append((own, count))
    return out

def with_tolerance(dice, job, passes):
    """The job's calls: its tolerance is a gap that a pass reaches, or one less, and the passes are as many as that takes, or one less, or more."""
    found = records(gaps(job, passes))
    own, count = dice.choice(found[-3:]) if found else (0, dice.randint(1, passes))
    job.tolerance = max(0, min(MOST_TOLERANCE, own - (dice.random() < 0.1)))
    allowed = {count, dice.choice((max(1, count - 1), min(count + 1, MOST_PASSES), passes))}
    return [Call(job.pack(), given) for given in sorted(allowed)]

# ---- calls

def proposed(dice):
    """Calls that come as far as the passes."""
    for _ in range(SMALL):
        yield from with_tolerance(dice, small(dice), 8)
    for _ in range(LINES):
        yield from with_tolerance(dice, line(dice), dice.choice((3, 40)))
    for _ in range(GRIDS):
        yield from with_tolerance(dice, grid(dice), dice.choice((3, 40)))
    for _ in range(SLOW):
        yield from with_tolerance(dice, slow(dice), MOST_PASSES)
    for job in largest(dice):
        yield from with_tolerance(dice, job, 3)

def another_room(dice, call, needed):
    """The call with an output as long as what is written, or one that is not."""
    return call._replace(room=dice.choice((needed, needed, needed - 1, needed - 1, needed + 1, 0, needed // 2)))

def damaged(dice, call):
    """The call with one thing wrong, or two."""
    for _ in range(dice.choice((1, 1, 1, 2))):
        at, kind = dice.randint(0, len(call.pack)), dice.randrange(6)
        if kind == 0:
            call = call._replace(passes=dice.choice((0, 0, 201, 201, 256, 1000, 2 ** 32 + 1, 2 ** 63, 2 ** 64 - 1)))
        elif kind == 1:
            call = call._replace(words=dice.choice((0, 1, 3, 5, 8)))
        elif kind == 2:
            call = call._replace(pack=call.pack[:at])
        elif kind == 3:
            call = call._replace(pack=call.pack + bytes([dice.randrange(256)]))
        else:
            call = call._replace(pack=call.pack[:at] + bytes([dice.choice((0, 1, 5, 9, 100, dice.randrange(256)))]) + call.pack[at + 1:])
    return call

def wide_or_thin(dice):
    """Grids that are too wide, and data that is too thin."""
    for columns in (13, 13, 20, 60):
        rows = 120 // columns
        yield Call(with_table(dice, rows * columns, Grid(rows, columns, 1, dice.randint(1, 4), 0), dice.randint(0, 20)).pack(), dice.choice((1, 200)))
    yield Call(thin(dice, Grid(2, 13, 1, 1, 1), 26).pack(), 200)
    for form, n in ((4, 120), (4, 100), (3, 120), (Grid(60, 2, 4, 1, 1), 120), (Grid(30, 4, 4, 1, 1), 120), (Grid(40, 3, 4, 1, 1), 120)):
        yield Call(thin(dice, form, n).pack(), dice.choice((1, 200)))

def refused_jobs(dice):
    """A job with each of the faults 3, 4 and 5."""
    cell, bad = (5, 1, 0, 9), (5, 1, 9, 8)
    for _ in range(6):
        n = dice.randint(3, 9)
        cells, at = [cell] * n, dice.randrange(n)
        yield Call(Job(2, 1, cells[:at] + [bad] + cells[at + 1:]).pack(), 200)
        yield Call(Job(2, 1, [cell] + [(5, 0, 0, 9)] * (n - 1)).pack(), 200)
        yield Call(Job(2, 1, cells, orderings(n)[:at] + [([(1, 1), (dice.randint(0, 1), 1)], 0)]).pack(), 200)

def is_small(call):
    """Whether it is soon computed: a short pack, and few passes unless it is very short."""
    return len(call.pack) < 90 and (call.passes <= 40 or len(call.pack) < 60)

def calls(outcome):
    """All of them; the outcome tells how long an output is needed."""
    dice = Random(SEED)
    good = [Call(Job(2, 1, [(0, 1, 0, 100), (5, 1, 0, 100), (0, 1, 0, 100)], [([(0, -1), (1, 1)], 0)]).pack(), 1, 4), *proposed(dice)]
    yield from good
    few = [call for call in good if is_small(call)]
    for call in dice.sample(few, DAMAGED):
        needed = outcome(call)[1] if outcome(call)[0] == 0 else ROOM
        yield another_room(dice, call, needed)
        yield damaged(dice, call)
    yield from wide_or_thin(dice)
    yield from refused_jobs(dice)
