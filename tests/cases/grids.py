"""Grids (W-205) for the program of crates/cases: some worked out by hand, each with the numbers that it must print, and random ones, good and spoilt."""
import random
from house.expect import ROOM
from packs import Grid, Job, check_case, house_case, number, numbers, proposal_pack

# ---- the select table of docs/SELECT-TABLE.md: the figures are those of that page

SELECT = Grid(rows=3, columns=2, down=2, across=1, second=2)
CRUDE, WEIGHTS, CEILINGS = [9, 18, 8, 19, 18, 28], [1, 1, 2, 1, 1, 2], [10, 100, 100, 100, 100, 100]
GRADUATED, CHANGED = [10, 12, 14, 17, 21, 24], [10, 12, 15, 17, 21, 24]

def select_table(weights=WEIGHTS, tolerance=40):
    return Job(SELECT, 1, [(u, w, 0, hi) for u, w, hi in zip(CRUDE, weights, CEILINGS)], tolerance=tolerance).pack()

def select_input():
    """The checking program's input for it, as tests/checker/select-table has it."""
    job = select_table()
    return number(len(job)) + job + proposal_pack(GRADUATED, [])

def select_cases():
    one_row, two_rows = [1, 1, 0, 0, 0, 0], [1, 0, 1, 0, 0, 0]
    return [
        (check_case(select_table(), proposal_pack(GRADUATED, [])), [0, 0, 211, 0]),
        (check_case(select_table(), proposal_pack(CHANGED, [])), [0, 0, 219, 40]),
        (check_case(select_table(tolerance=39), proposal_pack(CHANGED, [])), [9, 2, 0, 0]),
        (house_case(select_table(), ROOM), [0, 6, *GRADUATED]),
        (check_case(select_table(one_row), proposal_pack(GRADUATED, [])), [4, 0, 0, 0]),
        (check_case(select_table(two_rows), proposal_pack([9, 9, 8, 8, 7, 7], [])), [0, 0, 0, 0]),
    ]

# ---- other grids by hand: all crude rates and values are 5, so that loss and gap are 0

def flat(grid, k=1, n=None, weights=None, links=()):
    """The job pack of such a grid; n where the product is not n."""
    n = n or grid.rows * grid.columns
    return Job(grid, k, [(5, w, 0, 9) for w in weights or [1] * n], links).pack()

def accepted(pack, n):
    return check_case(pack, proposal_pack([5] * n, [])), [0, 0, 0, 0]

def refused(pack, *told):
    return check_case(pack, b''), [*told, 0, 0]

def limits():
    """Each new field at its limits."""
    made = [(Grid(2, 2, 1, 1, 1), 1), (Grid(2, 60, 1, 4, 1), 1), (Grid(60, 2, 4, 1, 1), 1), (Grid(5, 5, 4, 4, 1), 1), (Grid(4, 4, 3, 3, 1), 1),
            (Grid(4, 4, 1, 1, 999), 1), (Grid(4, 4, 1, 1, 1), 999), (Grid(4, 4, 1, 1, 500), 500)]
    return [accepted(flat(grid, k), grid.rows * grid.columns) for grid, k in made]

def beyond():
    """Each new field one beyond its limits, of n 16: the order field stands at 3, rows at 4, columns at 5, the orders at 6 and 7, the second constant
    at 8 and k at 9, or at 10 after a second constant of two bytes."""
    wrong = [
        (Grid(0, 16, 1, 1, 1), 1, 4), (Grid(1, 16, 1, 1, 1), 1, 4),
        (Grid(7, 2, 1, 1, 1), 1, 5), (Grid(16, 1, 1, 1, 1), 1, 5), (Grid(4, 5, 1, 1, 1), 1, 5), (Grid(5, 3, 1, 1, 1), 1, 5),
        (Grid(2 ** 62 + 4, 4, 1, 1, 1), 1, 13),
        (Grid(4, 4, 0, 1, 1), 1, 6), (Grid(4, 4, 4, 1, 1), 1, 6), (Grid(2, 8, 2, 1, 1), 1, 6), (Grid(8, 2, 5, 1, 1), 1, 6),
        (Grid(4, 4, 1, 0, 1), 1, 7), (Grid(4, 4, 1, 4, 1), 1, 7), (Grid(8, 2, 1, 2, 1), 1, 7), (Grid(2, 8, 1, 5, 1), 1, 7),
        (Grid(4, 4, 1, 1, 0), 1, 8), (Grid(4, 4, 1, 1, 1000), 1, 8),
        (Grid(4, 4, 1, 1, 1), 0, 9), (Grid(4, 4, 1, 1, 1), 1000, 9), (Grid(4, 4, 1, 1, 999), 2, 10), (Grid(4, 4, 1, 1, 500), 501, 10),
    ]
    made = [refused(flat(grid, k, 16), 2, place) for grid, k, place in wrong]
    made += [refused(flat(Grid(n, 1, 1, 1, 1)), 2, 5) for n in (2, 3)]
    made.append(refused(Job(6, 1, [(5, 1, 0, 9)] * 16).pack(), 2, 3))
    made.append(refused(flat(Grid(2 ** 63, 4, 1, 1, 1), n=16), 1, 4))
    return made + [refused(flat(Grid(4, 4, 1, 1, 1))[:place], 1, place) for place in range(4, 11)]

def weighted(down, across, *rows, columns=4, links=()):
    """The pack of a grid with so many columns and the weights written row by row."""
    return flat(Grid(len(rows), columns, down, across, 1), weights=[int(w) for w in ''.join(rows)], links=links)

ONE_ROW = ('1111', '0000', '0000', '0000')

def by_rows():
    """Refusal 4 goes by rows. One row or one column with enough positive weights, or enough of them anywhere, are looser rules. It stands after the
    last cell and before the links."""
    thin = [
        weighted(2, 2, *ONE_ROW),
        weighted(2, 2, '1000', '1000', '1000', '1000'),
        weighted(2, 2, '1101', '1000', '0010', '1000'),
        weighted(1, 3, '1100', '1100', '1100', '1100'),
        weighted(3, 1, '1111', '1111', '0000', '0000'),
        weighted(2, 1, '11111', '00000', '00000', columns=5),
        weighted(2, 2, *ONE_ROW, links=[([(0, 0)], 0)]),
        weighted(2, 2, *ONE_ROW)[:-1],
    ]
    enough = [
        (weighted(2, 2, '0110', '0000', '0000', '1001'), 16),
        (weighted(1, 3, '0000', '0000', '1011', '0000'), 16),
        (weighted(3, 1, '1000', '0010', '0000', '1000'), 16),
        (weighted(1, 2, '000', '000', '000', '011', '000', columns=3), 15),
    ]
    floor = Job(Grid(4, 4, 2, 2, 1), 1, [(5, 0, 0, 9)] * 15 + [(5, 0, 9, 8)]).pack()
    return [refused(pack, 4, 0) for pack in thin] + [accepted(pack, n) for pack, n in enough] + [refused(floor, 3, 15)]

def wide():
    """The house proposal covers 12 columns. 20 comes after all that the job pack can be refused for, and before data too thin and the room; the check
    has no such limit."""
    twelve, thirteen = flat(Grid(2, 12, 1, 4, 1)), flat(Grid(2, 13, 1, 4, 1))
    return [
        (house_case(twelve, 24), [0, 24] + [5] * 24),
        (house_case(twelve, 23), [13, 24]),
        (house_case(thirteen, 0), [20, 0]),
        (house_case(thirteen + b'\0', 0), [1, len(thirteen)]),
        (house_case(flat(Grid(2, 13, 1, 4, 1), links=[([(1, 1), (0, 1)], 0)]), 0), [5, 0]),
        (house_case(weighted(1, 4, '1110000000000', '0000000000000', columns=13), 0), [4, 0]),
        (barely(Grid(9, 13, 4, 1, 1), 999), [20, 0]),
        (house_case(flat(Grid(13, 2, 4, 1, 1)), 26), [0, 26] + [5] * 26),
        accepted(thirteen, 26),
    ]

def square():
    """Two rows and two columns: u 0 15 0 0 and v 3 7 2 3, of which every residual is 0."""
    job = Job(Grid(2, 2, 1, 1, 1), 1, [(u, 1, 0, 100) for u in (0, 15, 0, 0)]).pack()
    return [(check_case(job, proposal_pack([3, 7, 2, 3], [])), [0, 0, 120, 0]), (house_case(job, 4), [0, 4, 3, 7, 2, 3]), (house_case(job, 3), [13, 4])]

def by_hand():
    return select_cases() + square() + limits() + beyond() + by_rows() + wide()

# ---- grids whose numbers are computed: at document 01's limits, too thin for the house, and random ones

def chequered(grid, k):
    """A check of the steepest table in boxes with room for it alone, the crude rates as far off as can be."""
    values = [10 ** 6 * ((row + column) % 2) for row in range(grid.rows) for column in range(grid.columns)]
    return check_case(Job(grid, k, [(10 ** 6 - v, 1000, v, v) for v in values]).pack(), proposal_pack(values, []))

def barely(grid, k):
    """A house proposal of a grid with no more positive weights than refusal 4 asks for."""
    held = {row * grid.columns + column for row in range(grid.down) for column in range(grid.across)}
    return house_case(Job(grid, k, [(5 * i, int(i in held), 0, 10 ** 6) for i in range(grid.rows * grid.columns)]).pack(), ROOM)

def extremes():
    steep = [chequered(Grid(60, 2, 4, 1, 1), 999), chequered(Grid(2, 60, 1, 4, 999), 1), chequered(Grid(10, 12, 4, 4, 500), 500)]
    return steep + [barely(Grid(rows, columns, *orders, 1), 999) for rows, columns in ((10, 12), (60, 2)) for orders in ((1, 1), (2, 1), (3, 1), (4, 1))]

def random_grid(dice):
    one = dice.randint(2, 60)
    other = dice.randint(2, 120 // one)
    rows, columns = dice.choice([(one, other), (other, one)])
    second = dice.choice([1, dice.randint(1, 999), 999])
    return Grid(rows, columns, dice.randint(1, min(4, rows - 1)), dice.randint(1, min(4, columns - 1)), second)

def random_cell(dice, most, zeros):
    """A cell and a value inside its box; in every other cell the crude rate is that value."""
    lo, hi = dice.choice([sorted(dice.randint(0, most) for _ in range(2)), (0, 10 ** 6)])
    value = dice.randint(lo, min(hi, most))
    u = dice.choice([value, dice.randint(0, most)])
    return (u, 0 if dice.random() < zeros else dice.randint(1, 1000), lo, hi), value

def random_link(dice, values):
    """A link that holds, but for one in forty, and its multiplier."""
    terms = [(c, dice.choice([-10, -1, 1, 3, 10])) for c in sorted(dice.sample(range(len(values)), dice.randint(1, 4)))]
    if dice.random() < 0.03:
        terms[-1] = dice.choice([(0, 1), (terms[-1][0], 0)])
    room = -1 if dice.random() < 0.03 else dice.choice([0, 1, 5])
    return (terms, sum(s * values[c] for c, s in terms) + room), dice.choice([0, 0, 1, dice.randint(0, 10 ** 4)])

def random_packs(dice):
    """The job pack and the proposal pack of a random grid."""
    grid, most, zeros = random_grid(dice), dice.choice([20, 1000, 10 ** 6]), dice.choice([0, 0, 0.5, 0.9])
    left = 1000 - grid.second
    k, tolerance = dice.choice([1, dice.randint(1, left), left]), dice.choice([0, 10 ** 15, 10 ** 15, dice.randint(0, 10 ** 9)])
    cells, values = zip(*(random_cell(dice, most, zeros) for _ in range(grid.rows * grid.columns)))
    made = [random_link(dice, values) for _ in range(dice.choice([0, 0, 3]))]
    links, multipliers = [link for link, _ in made], [y for _, y in made]
    job = Job(grid, k, cells, links, dice.randint(0, 7), dice.randint(0, 2 ** 32 - 1), tolerance)
    return spoilt(dice, job), spoilt_proposal(dice, proposal_pack(values, multipliers))

def changed(dice, pack, size):
    """A pack with one of its first bytes changed."""
    at = dice.randrange(size)
    return pack[:at] + bytes([dice.randrange(256)]) + pack[at + 1:]

def with_spare(dice, pack):
    return pack + b'\0' if dice.random() < 0.05 else pack

def spoilt(dice, job):
    """A job's pack, in every other case with a number before the cells, a byte or its end changed."""
    pack, head = job.pack(), job.head()
    size, kind = len(numbers(head)), dice.choice(['good'] * 5 + ['head'] * 3 + ['byte', 'cut'])
    if kind == 'head':
        at = dice.randrange(len(head))
        head[at] = max(0, dice.choice([0, 1, 2, 5, 6, head[at] + 1, head[at] - 1, 2 ** 62 + head[at], 121, 1000, 1001]))
        return numbers(head) + pack[size:]
    if kind == 'byte':
        return changed(dice, pack, dice.choice([size, len(pack)]))
    return pack[:dice.randrange(len(pack))] if kind == 'cut' else with_spare(dice, pack)

def spoilt_proposal(dice, pack):
    return changed(dice, pack, len(pack)) if dice.random() < 0.1 else with_spare(dice, pack)

def random_cases(count, seed):
    """So many house proposals and so many checks."""
    dice, made = random.Random(seed), []
    for _ in range(count):
        job, _ = random_packs(dice)
        made.append(house_case(job, dice.choice([ROOM] * 4 + [dice.randint(0, 400)])))
        made.append(check_case(*random_packs(dice)))
    return made
