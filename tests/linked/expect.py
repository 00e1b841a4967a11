#!/usr/bin/env python3
"""What bench_propose_linked has to answer to random calls, from the documents alone (tests/linked/calls.c makes them).

  tests/linked/expect.py make FOLDER       writes FOLDER/calls.in, a call a line
  tests/linked/expect.py compare FOLDER    compares FOLDER/answered, a line for each, tells what was met, and whether each slip of slips.py is told by
                                           one of the calls; the last line is 'N passed, M failed'
  tests/linked/expect.py bits              draws tests/linked/bits anew, in a minute or two: calls among which each slip of the last bit is told by some
"""
import sys
from collections import Counter
from pathlib import Path
from random import Random

HERE = Path(__file__).resolve().parent
sys.path[:0] = [str(HERE), str(HERE.parent)]
from drawn import SEED, call_of, calls, is_small, on_a_half, with_tolerance
from packs import job_of
from passes import ANSWER_WORDS, outcome
from slips import LARGE, LAST_BIT

FRESH = 0xA5A5A5A5A5A5A5A5
BITS, TOLD = HERE / 'bits', 20
# What has to be met, and how often at least.
LEAST = {
    'lines': {'done': 2000, 'count 1': 1000, 'count 2 to 10': 300, 'count 11 to 50': 10, 'count 51 to 199': 5, 'count 200': 1, 'no link': 300, '14': 300,
              '10': 3, '13, room': 50},
    'grids': {'done': 60, 'count 1': 20, 'count 2 to 10': 10, 'count 11 to 50': 3, 'no link': 1, '14': 10, '10': 2, '20': 3},
    'all': {'13, answer': 30, '21': 30, '1': 50, '2': 30, '3': 6, '4': 6, '5': 6, 'room as needed': 50},
}

def answered_to(call, passes=None):
    return outcome(call.pack, call.passes, call.room, *([passes] if passes else []))

def expected(call, passes=None):
    """The line that has to be printed for it."""
    if call.words != ANSWER_WORDS:
        return ' '.join(map(str, [32 * ANSWER_WORDS + 13, *[FRESH] * 4, 'x']))
    number, place, count, out = answered_to(call, passes)
    return ' '.join(map(str, [32 * place + number, number, place, count, 0, 'x' + out.hex()]))

# ---- what was met

def counted(count):
    for most in (1, 10, 50, 199):
        if count <= most:
            return 'count 1' if most == 1 else f'count {dict([(10, 2), (50, 11), (199, 51)])[most]} to {most}'
    return f'count {count}'

def kinds(call, line):
    """The form of a call's job and what its line is, in the words of LEAST."""
    number, place, count = map(int, line.split()[1:4])
    if call.words != ANSWER_WORDS:
        return [('all', '13, answer')]
    if number in (1, 2, 3, 4, 5, 21):
        return [('all', str(number))]
    job = job_of(call.pack)
    form = 'grids' if job.is_grid() else 'lines'
    if number != 0:
        return [(form, '13, room' if number == 13 else str(number))]
    out = [(form, 'done'), (form, counted(count))] + [(form, 'no link')] * (not job.links)
    return out + [('all', 'room as needed')] * (call.room == place)

def too_few(met):
    """Prints how often each kind was met, and gives those that were met too seldom."""
    for form, least in LEAST.items():
        print(f'  {form}: ' + ', '.join(f'{met[form, kind]} {kind}' for kind in least))
    return [f'{kind} of {form}: {met[form, kind]} times, and {times} are asked for'
            for form, least in LEAST.items() for kind, times in least.items() if met[form, kind] < times]

# ---- slips

def told(slip, several):
    """How many calls tell a slip, of so many that are looked at; the search ends with the third."""
    found = at = 0
    for at, (call, line) in enumerate(several, 1):
        found += expected(call, slip) != line
        if found == 3:
            break
    return found, at

def slips_told(pairs):
    """For each slip whether a small call tells it, or one of those that were drawn for the last bit; printed."""
    bits = len(BITS.read_text().splitlines())
    few = [(call, line) for call, line in pairs[:-bits] if is_small(call) and call.words == ANSWER_WORDS]
    for slip in LARGE + LAST_BIT:
        found, at = told(slip, few if slip in LARGE else pairs[-bits:])
        print(f'{"found " if found else "FAILED"}  {slip.__doc__[:-1]} (told by {found} of {at} calls)')
        yield found > 0

# ---- the three commands

def bits():
    dice, wanted, found = Random(SEED), Counter({slip: TOLD for slip in LAST_BIT}), []
    while any(wanted.values()):
        for call in with_tolerance(dice, on_a_half(dice), 2):
            due = expected(call)
            tell = [slip for slip in LAST_BIT if wanted[slip] and expected(call, slip) != due]
            wanted.subtract(tell)
            found += [call.line() + '\n'] * bool(tell)
    BITS.write_text(''.join(found))
    return True

def make(folder):
    with open(Path(folder) / 'calls.in', 'w') as out:
        out.writelines(call.line() + '\n' for call in calls(answered_to))
        out.write(BITS.read_text())
    return True

def compare(folder):
    lines, answers = ((Path(folder) / name).read_text().splitlines() for name in ('calls.in', 'answered'))
    met, differ, pairs = Counter(), 0, []
    for line, answer in zip(lines, answers):
        call = call_of(line)
        due = expected(call)
        met.update(kinds(call, due))
        pairs.append((call, due))
        differ += answer != due
        if answer != due and differ <= 5:
            print(f'FAILED  {line}\n        answered {answer}\n        expected {due}')
    print(f'proposals that honour links: {len(pairs) - differ} of {len(lines)} answers are those of the documents')
    few = too_few(met)
    for what in few:
        print('FAILED  ' + what)
    tests = [differ == 0 and len(answers) == len(lines) > 0, not few, *slips_told(pairs)]
    print(f'{sum(tests)} passed, {len(tests) - sum(tests)} failed')
    return all(tests)

if __name__ == '__main__':
    sys.exit(0 if {'make': make, 'compare': compare, 'bits': bits}[sys.argv[1]](*sys.argv[2:]) else 1)
