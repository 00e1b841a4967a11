#!/usr/bin/env python3
"""What the program of crates/cases is run on and has to print, computed apart from the crates.

  tests/cases/expect.py                             writes crates/cases/stdin and crates/cases/stdout
  tests/cases/expect.py --check                     compares them: the last line counts the stored cases that are, and are not, what is made here
  tests/cases/expect.py --random N SEED IN OUT      writes N random proposals and N random checks of grids, and the lines that they must print;
                                                    the program takes at most 10,000 cases

First come the house proposals of `tests/house/expect.py`, then what is worked out by hand: document 01's tables, largest terms (W-202), a table whose
bound is reached (W-208), refusals, and the grids of `tests/cases/grids.py`; then limits and random grids, and last the solver's jobs, one for each line
of `tests/solver/optima`. Those are kept as they are stored: only their lines are computed.
"""
import sys
from pathlib import Path

sys.path.insert(0, str(Path(__file__).resolve().parents[1]))
import packs
from cases import grids
from house import expect as house
from packs import Job, check_case, house_case, number, proposal_pack
from solver.optima import optima
from verdict import checked

MOST = 10 ** 15
SELECT_TABLE = packs.ROOT / 'tests' / 'checker' / 'select-table'

# ---- document 01, "Tables worked by hand": the figures are the document's

def three(u, weights=(1, 1, 1), links=(), tolerance=1000):
    return Job(2, 1, [(x, w, 0, 100) for x, w in zip(u, weights)], links, tolerance=tolerance)

LINK = [([(0, -1), (1, 1)], 0)]

def tables():
    """The tables that both packs can be written of: job, values, multipliers, and number, place, F and G."""
    return [
        (three([0, 7, 0]), [2, 3, 2], [], [0, 0, 28, 0]),
        (three([0, 7, 0]), [2, 3, 3], [], [0, 0, 30, 9]),
        (three([0, 7, 0], tolerance=784), [0, 7, 0], [], [0, 0, 196, 784]),
        (three([0, 7, 0], tolerance=783), [0, 7, 0], [], [9, 1, 0, 0]),
        (three([0, 5, 0], links=LINK), [2, 2, 1], [2], [0, 0, 15, 0]),
        (three([0, 5, 0], links=LINK), [2, 2, 1], [0], [0, 0, 15, 2]),
        (three([0, 5, 0], links=LINK), [3, 2, 1], [2], [0, 0, 19, 11]),
        (three([0, 5, 0], links=LINK), [2, 3, 1], [2], [8, 0, 0, 0]),
        (three([0, 50, 0], weights=(1, 0, 1)), [0, 1, 0], [], [0, 0, 4, 16]),
        (three([0, 1, 0]), [0, 0, 0], [], [0, 0, 1, 1]),
    ]

def worked():
    made = [(check_case(job.pack(), proposal_pack(v, y)), told) for job, v, y, told in tables()]
    thin = Job(2, 1000, [(0, 1, 0, 100)] * 2 + [(0, 0, 0, 100)] * 118)
    two = Job(0, 1, [(0, 1, 0, 100)] * 2)
    made.append((house_case(thin.pack(), house.ROOM), [10, 119]))
    made.append((check_case(two.pack(), proposal_pack([0, 0], [])), [2, 3, 0, 0]))
    made.append((check_case(b'', b''), [1, 0, 0, 0]))
    return made

# ---- W-202: the largest term, worked out by hand

def held_back():
    """u 0 5 0, v 3 2 1, and document 01's link twice. There is no difference, so F is 9 + 9 + 1 and the residuals are 6 - y, y - 6 and 2, y both
    multipliers together. The weight supplies each cell's term; a link's room is its bound and 1. T as large as the gap, one less, and 0."""
    made = []
    for bounds, multipliers, terms, place in [
        ((0, 0), (0, 0), (9, 9, 1, 0, 0), 0),
        ((0, 0), (3, 0), (3, 3, 1, 3, 0), 0),
        ((0, 0), (4, 0), (1, 1, 1, 4, 0), 3),
        ((0, 0), (0, 4), (1, 1, 1, 0, 4), 4),
        ((0, 0), (2, 2), (1, 1, 1, 2, 2), 3),
        ((0, 1), (2, 2), (1, 1, 1, 2, 4), 4),
    ]:
        links, g = [(LINK[0][0], b) for b in bounds], sum(terms)
        for tolerance, told in (g, [0, 0, 19, g]), (g - 1, [9, place, 0, 0]), (0, [9, place, 0, 0]):
            made.append((check_case(three([0, 5, 0], links=links, tolerance=tolerance).pack(), proposal_pack([3, 2, 1], multipliers)), told))
    return made

# ---- W-208: a table whose bound is reached, worked out by hand

def reaching(tolerance=3):
    """u 4 4 4, weights 3 0 1 and order 2, in the boxes 3..7, 2..4 and 0..1."""
    return Job(2, 1, [(4, 3, 3, 7), (4, 0, 2, 4), (4, 1, 0, 1)], tolerance=tolerance)

def bound_reached():
    """v 3 2 1. The difference 3 - 2*2 + 1 is 0, so F is 3*1 + 1*9 and the residuals are -6, 0 and -6. Cell 0 has room up to its ceiling, 6*4, and its
    weight supplies less, 36/12; cell 2 is at its ceiling. The terms are 3, 0 and 0: T 3 accepts, T 2 names cell 0."""
    lines = (3, [0, 0, 12, 3]), (2, [9, 0, 0, 0])
    return [(check_case(reaching(tolerance).pack(), proposal_pack([3, 2, 1], [])), told) for tolerance, told in lines]

# ---- refusals of the check, and limits

def refused():
    """Document 01, "Numbers Mr Aldous reads": each number and place is read from there."""
    made = [(check_case(pack, b''), [*told, 0, 0]) for pack, told in house.refused()]
    job = three([0, 5, 0], links=LINK * 2)
    for proposal, place in [
        (b'', 0),
        (number(2) + b'\x80', 1),
        (number(300) + b'\x80\0' + proposal_pack([1], [0, 0]), 2),
        (proposal_pack([2, 1000001, 1], [0, 0]), 1),
        (proposal_pack([2, 2, 1], [0, 10 ** 9 + 1]), 4),
        (proposal_pack([2, 2, 1], [0]), 4),
        (proposal_pack([101, 2, 1], [0, 0]) + b'\0', 5),
    ]:
        made.append((check_case(job.pack(), proposal), [6, place, 0, 0]))
    made.append((check_case(job.pack(), proposal_pack([2, 101, 102], [0, 0])), [7, 1, 0, 0]))
    made.append((check_case(job.pack(), proposal_pack([2, 3, 1], [0, 0])), [8, 0, 0, 0]))
    return made

def limits():
    """Checks at the limits of document 01, "Numbers allowed"."""
    million = 10 ** 6
    largest = [(million - x, 1000, x, x) for i in range(120) for x in [million * (i % 2)]]
    steep = [(0, 1000, 0, million), (million, 1000, 0, million)]
    held = [([(0, 1)], million)]
    heavy = [([(0, 10), (1, 10), (2, 10), (3, 10)], 4 * 10 ** 7)] * 160
    made = [
        (Job(4, 1000, largest, tolerance=0), [million * (i % 2) for i in range(120)], []),
        (Job(1, 1, steep, held, tolerance=MOST), [million] * 2, [0]),
        (Job(1, 1, steep, held, tolerance=MOST - 1), [million] * 2, [0]),
        (Job(1, 1, steep, held, tolerance=MOST), [million] * 2, [1]),
        (Job(1, 1, [(0, 1000, 999600, million), steep[1]], held, tolerance=MOST), [million] * 2, [1]),
        (Job(1, 1, [(0, 1, 0, million)] * 4, heavy, tolerance=MOST), [million] * 4, [10 ** 9] * 160),
        (Job(1, 1, [(0, 1, 0, million)] * 4, heavy, tolerance=MOST), [0] * 4, [10 ** 9] * 160),
        (Job(1, 1, [(0, 1, 0, million)] * 4, tolerance=MOST, society=7, job=2 ** 32 - 1), [0] * 4, []),
    ]
    return [check_case(job.pack(), proposal_pack(values, multipliers)) for job, values, multipliers in made]

# ---- all cases

def computed(case):
    """The numbers of a case's line."""
    return (house.answered if case[0] == packs.HOUSE else checked)(*packs.parts_of(case))

def by_hand():
    """The cases with lines that were worked out by hand."""
    thin = [(house_case(pack, house.ROOM), told) for pack, told in house.refused()]
    return thin + worked() + held_back() + bound_reached() + refused() + grids.by_hand()

def solved():
    """The solver's jobs as they are stored."""
    count = len(optima())
    return packs.cut(packs.STDIN.read_bytes())[-count:] if count else []

def line(told):
    return ' '.join(str(x) for x in told)

def with_lines(cases):
    return [(case, line(computed(case))) for case in cases]

def cases(last):
    """All cases with their lines."""
    middle = [(case, line(told)) for case, told in by_hand()]
    return with_lines(house.cases()) + middle + with_lines(limits() + grids.extremes() + grids.random_cases(60, 205) + last)

def write(made, stdin=packs.STDIN, stdout=packs.STDOUT):
    stdin.write_bytes(b''.join(case for case, _ in made))
    stdout.write_text(''.join(line + '\n' for _, line in made))

def check():
    """Counts the cases, and what was worked out by hand, on which the scripts have to say the same."""
    made = cases(solved())
    stored = list(zip(packs.cut(packs.STDIN.read_bytes()), packs.STDOUT.read_text().splitlines()))
    wrong = [f'case {i + 1} is not what is computed' for i, x in enumerate(made) if stored[i:i + 1] != [x]]
    if b''.join(case for case, _ in made) != packs.STDIN.read_bytes() or len(made) != len(packs.STDOUT.read_text().splitlines()):
        wrong.append('more or less is stored than the cases')
    if SELECT_TABLE.read_bytes() != grids.select_input():
        wrong.append(f'{SELECT_TABLE.name} is not the input of the select table')
    wrong += [f'worked out by hand: {told}, computed: {computed(case)}' for case, told in by_hand() if computed(case) != told]
    for line in wrong:
        print(line)
    return len(made) + 2 + len(by_hand()) - len(wrong), len(wrong)

def main(command=None, *given):
    if command is None:
        write(cases(solved()))
    elif command == '--check':
        passed, failed = check()
        print(f'{passed} passed, {failed} failed')
        sys.exit(1 if failed else 0)
    elif command == '--random':
        count, seed, stdin, stdout = given
        write(with_lines(grids.random_cases(int(count), int(seed))), Path(stdin), Path(stdout))
    else:
        sys.exit(__doc__)

if __name__ == '__main__':
    main(*sys.argv[1:])
