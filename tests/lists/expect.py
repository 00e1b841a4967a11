#!/usr/bin/env python3
"""What the three calls on comma lists have to answer, from document 02 (W-201) and RFC 4180 alone, and random calls to compare (tests/lists/calls.c).

  tests/lists/expect.py make FOLDER       writes FOLDER/calls.in, a call a line
  tests/lists/expect.py compare FOLDER    compares FOLDER/answered, a line for each, and prints as its last line 'N passed, M failed'

Half of the good lists are written by Python's csv module in its default dialect, and every table that was answered is read by it.
"""
import csv
import io
import re
import sys
from collections import Counter
from fractions import Fraction
from math import floor
from pathlib import Path
from random import Random

sys.path.insert(0, str(Path(__file__).resolve().parents[1]))
from packs import GRID, Refused, job_of, numbers

CLAIMS, TABLE = b'age,exposure,deaths', b'age,rate'
MOST, DATA = 10 ** 9, 120
CALLS, SEED = 30000, 201
FRESH = 0xA5A5A5A5A5A5A5A5
ROOM = {'import': 1339, 'export': 2651, 'rates': 120}
NUMBERS = {'import': {0, 2, 3, 4, 13, 16, 17, 18, 19}, 'export': {0, 2, 13}, 'rates': {0, 2, 13, 16, 17}}

# ---- lists

NUMBER = rb'(0|[1-9][0-9]*)'

def lines_of(text):
    """The lines of a text, which CR LF parts; the last one may end in it."""
    lines = text.split(b'\r\n')
    return lines[:-1] if len(lines) > 1 and lines[-1] == b'' else lines

def row_of(line, fields):
    """The numbers of a line of data; None where it is malformed or a number is out of range."""
    found = re.fullmatch(b','.join([NUMBER] * fields), line)
    row = [int(x) for x in found.groups()] if found else [MOST + 1]
    return row if max(row) <= MOST else None

def rows_of(text, header):
    """The rows of a list, or its first refusal."""
    lines, rows = lines_of(text), []
    if lines[0] != header:
        raise Refused(16, 1)
    for at, line in enumerate(lines[1:], 2):
        row = row_of(line, header.count(b',') + 1)
        if row is None or len(rows) == DATA:
            raise Refused(16, at)
        if rows and row[0] != rows[-1][0] + 1:
            raise Refused(17, at)
        if header == CLAIMS and row[2] > row[1]:
            raise Refused(18, at)
        rows.append(row)
    return rows

def rate_of(exposure, deaths):
    """Deaths times 1,000,000 over exposure, halves up."""
    return floor(Fraction(deaths * 10 ** 6, exposure) + Fraction(1, 2)) if exposure else 0

def weight_of(exposure, divisor):
    return min(exposure // divisor, 1000)

# ---- the calls

def import_(text, divisor, society, job, order, constant, tolerance, low, high):
    """The pack, or the refusal that reading it would give. No number of it has more than nine groups, and the order announces no grid."""
    if divisor == 0:
        raise Refused(19, 0)
    rows = rows_of(text, CLAIMS)
    cells = [x for _, e, d in rows for x in (rate_of(e, d), weight_of(e, divisor), low, high)]
    words = [society, job, len(rows), GRID + 1 if order == GRID else order, constant, tolerance, *cells, 0]
    pack = numbers(min(x, 2 ** 63 - 1) for x in words)
    job_of(pack)
    return pack

def export(rates, first):
    if not 1 <= len(rates) <= DATA or max(rates) > MOST or first + len(rates) - 1 > MOST:
        raise Refused(2, 0)
    return TABLE + b'\r\n' + b''.join(b'%d,%d\r\n' % (first + i, rate) for i, rate in enumerate(rates))

def rates(text):
    rows = rows_of(text, TABLE)
    if not rows:
        raise Refused(2, 0)
    return [rate for _, rate in rows]

class Call:
    """A line of the calls: which it is, what it takes, the output's length, the answer's."""

    def __init__(self, line):
        self.name, *words = line.split()
        if self.name == 'export':
            first, self.room, self.words, *several = map(int, words)
            self.takes = several, first
        else:
            *given, self.room, self.words = map(int, words[1:])
            self.takes = bytes.fromhex(words[0][1:]), *given

    def outcome(self):
        """Number, place, and what is written."""
        try:
            out = {'import': import_, 'export': export, 'rates': rates}[self.name](*self.takes)
        except Refused as refused:
            return *refused.args, []
        return (0, len(out), out) if len(out) <= self.room else (13, len(out), [])

    def expected(self):
        """The line that has to be printed for it, and its number."""
        number, place, out = self.outcome() if self.words == 4 else (13, 4, [])
        answer = [number, place, 0, 0] if self.words == 4 else [FRESH] * 4
        written = [str(x) for x in out] if self.name == 'rates' else ['x' + bytes(out).hex()]
        return ' '.join([*map(str, [32 * place + number, *answer]), *written]), number

# ---- random lists

def some(dice, *several):
    """One of them; a function is called."""
    one = dice.choice(several)
    return one() if callable(one) else one

def size(dice):
    """A number 0..10^9 of any length, and often an end of that."""
    return some(dice, 0, 1, MOST, lambda: dice.randrange(10 ** dice.randrange(1, 10)), lambda: dice.randrange(10 ** dice.randrange(1, 10)))

def claims(dice):
    """The rows of a good list."""
    count = some(dice, 0, 1, 2, 3, 5, lambda: dice.randrange(2, 20), lambda: dice.randrange(2, 20), lambda: dice.randrange(2, 20), 119, 120)
    first, rows = min(size(dice), MOST - count), []
    for age in range(first, first + count):
        exposure = size(dice)
        rows.append([age, exposure, some(dice, 0, exposure, exposure // 2, exposure // 100, lambda: dice.randrange(exposure + 1))])
    return rows

def written(dice, header, rows):
    """A list of rows, as csv writes it or as text is put together."""
    if dice.random() < 0.5:
        text = io.StringIO(newline='')
        csv.writer(text).writerows([header.decode().split(','), *rows])
        return text.getvalue().encode()
    text = b''.join(line + b'\r\n' for line in [header, *(b','.join(b'%d' % x for x in row) for row in rows)])
    return text[:-2] if dice.random() < 0.5 else text

def one_number(dice, text, change):
    """With one of its numbers changed."""
    found = list(re.finditer(rb'[0-9]+', text))
    if not found:
        return text
    at = dice.choice(found)
    return text[:at.start()] + change(at.group()) + text[at.end():]

def one_line(dice, text, change):
    """With some lines in place of one."""
    lines = text.split(b'\r\n')
    at = dice.randrange(len(lines))
    return b'\r\n'.join(lines[:at] + change(lines[at]) + lines[at + 1:])

def one_place(dice, text, put, cut):
    """With some bytes in place of as many as are cut."""
    at = dice.randrange(len(text) + 1)
    return text[:at] + put + text[at + cut:]

def longer(dice, text):
    """With lines of data until there are 120, or some more."""
    lines = lines_of(text)
    last = re.match(rb'([0-9]{1,8}),(.*)', lines[-1])
    age, rest = (int(last[1]), last[2]) if last else (40, b'9,0')
    while len(lines) < dice.choice([121, 122, 122, 123, 130]):
        age += 1
        lines.append(b'%d,' % age + rest)
    return b'\r\n'.join(lines) + some(dice, b'', b'\r\n', b'\r\n\r\n')

BYTES = [bytes([x]) for x in b'0123456789,\r\n"\' ;.-+\t\0a\\\x80\xff']
DAMAGES = [
    lambda dice, text: one_place(dice, text, dice.choice(BYTES), 0),
    lambda dice, text: one_place(dice, text, dice.choice(BYTES), 1),
    lambda dice, text: one_place(dice, text, b'', dice.randrange(1, 4)),
    lambda dice, text: one_place(dice, text, b'', len(text)),
    lambda dice, text: one_place(dice, text, b'\r\n', 0),
    lambda dice, text: one_place(dice, text, bytes([dice.randrange(256)]), dice.randrange(2)),
    lambda dice, text: one_number(dice, text, lambda digits: b'0' + digits),
    lambda dice, text: one_number(dice, text, lambda digits: b'%d' % (int(digits) + 1)),
    lambda dice, text: one_number(dice, text, lambda digits: b'"' + digits + b'"'),
    lambda dice, text: one_number(dice, text, lambda digits: b' ' + digits),
    lambda dice, text: one_number(dice, text, lambda digits: b''),
    lambda dice, text: one_number(dice, text, lambda digits: some(dice, b'1000000000', b'1000000001', b'4294967296', b'18446744073709551617', b'1' * 30)),
    lambda dice, text: one_line(dice, text, lambda line: []),
    lambda dice, text: one_line(dice, text, lambda line: [line, line]),
    lambda dice, text: one_line(dice, text, lambda line: [b'', line]),
    lambda dice, text: one_line(dice, text, lambda line: [line + b',1']),
    lambda dice, text: one_line(dice, text, lambda line: [line.rpartition(b',')[0]]),
    lambda dice, text: one_line(dice, text, lambda line: [line[:-1] + b'00' + line[-1:]]),
    lambda dice, text: text + b'\r\n',
    lambda dice, text: text.replace(b'\r\n', some(dice, b'\n', b'\r', b'\n\r', b'\r\r\n')),
    lambda dice, text: b'\xef\xbb\xbf' + text,
    lambda dice, text: some(dice, b'Age', b'AGE', b' age', b'"age"', b'') + text[3:],
    lambda dice, text: text.partition(b'\r\n')[2],
    lambda dice, text: text.replace(CLAIMS, TABLE) if text.startswith(CLAIMS) else text.replace(TABLE, CLAIMS),
    lambda dice, text: text.replace(b',', b';'),
    longer, longer,
]

def text_of(dice, header, rows):
    """A list as it should be, or with a damage or two."""
    text = written(dice, header, rows)
    for _ in range(dice.choice([0, 0, 0, 1, 1, 2])):
        text = dice.choice(DAMAGES)(dice, text)
    return text

# ---- random calls

def wide(dice, *usual):
    """A number that is mostly one of these, and else any of 64 bits."""
    return some(dice, *usual, lambda: dice.getrandbits(dice.randrange(1, 65))) if dice.random() < 0.15 else dice.choice(usual)

def numbers_of(dice):
    """The divisor and what the pack takes as it is."""
    divisor = some(dice, 0, 1, 1, 10, 100, lambda: size(dice), lambda: dice.getrandbits(64)) if dice.random() < 0.7 else 1
    low = wide(dice, 0, 5, 999999, 1000000) if dice.random() < 0.4 else 0
    high = wide(dice, 0, 500, 500, 1000000, 1000001) if dice.random() < 0.4 else 1000000
    return [divisor, wide(dice, *range(8)), wide(dice, 0, 1, 300, 2 ** 32 - 1), wide(dice, 0, 1, 2, 3, 4) if dice.random() < 0.9 else dice.randrange(5, 9),
            wide(dice, 1, 2, 100, 128, 1000), wide(dice, 0, 1, 10 ** 15, 200), low, high]

def room_of(dice, line):
    """An output as long as what is written, or one that is not."""
    call = Call(f'{line} {ROOM[line.split()[0]]} 4') if not line.startswith('export') else Call(line.replace('ROOM', '2651'))
    needed = call.outcome()[1] if call.outcome()[0] == 0 else ROOM[call.name]
    return max(0, min(needed + some(dice, 0, 0, 0, 0, 1, -1, -needed), ROOM[call.name]))

def a_call(dice):
    words = dice.choice([4] * 60 + [0, 1, 3, 5, 8])
    name = some(dice, 'import', 'import', 'import', 'import', 'rates', 'export')
    if name == 'import':
        line = f'import x{text_of(dice, CLAIMS, claims(dice)).hex()} ' + ' '.join(map(str, numbers_of(dice)))
    elif name == 'rates':
        line = f'rates x{text_of(dice, TABLE, [[age, deaths] for age, _, deaths in claims(dice)]).hex()}'
    else:
        rows = claims(dice) + [[0, 0, size(dice)]] * some(dice, 0, 0, 0, 1, 2, 500)
        several = [rate if dice.random() < 0.999 else some(dice, MOST + 1, 2 ** 32 - 1) for _, _, rate in rows]
        first = some(dice, 0, 60, lambda: size(dice), MOST + 1 - len(rows), MOST + 2 - len(rows), lambda: wide(dice, 2 ** 64 - 1, 2 ** 64 - len(rows)))
        line = f'export {min(first, 2 ** 64 - 1)} ROOM 4 ' + ' '.join(map(str, several))
        return line.replace('ROOM 4', f'{room_of(dice, line)} {words}')
    return f'{line} {room_of(dice, line)} {words}'

# ---- what was answered

def read_by_csv(call, answered):
    """A table as Python's csv module reads it."""
    text = bytes.fromhex(answered.split()[-1][1:]).decode()
    several, first = call.takes
    return list(csv.reader(io.StringIO(text, newline=''))) == [['age', 'rate'], *([str(first + i), str(rate)] for i, rate in enumerate(several))]

def written_by_csv(text):
    """Whether a list that was taken is byte for byte what Python's csv module writes."""
    again = io.StringIO(newline='')
    csv.writer(again).writerows(csv.reader(io.StringIO(text.decode(), newline='')))
    return again.getvalue().encode() == text

def compare(folder):
    """What passed and what failed, a count each; the first few that fail are printed."""
    calls, answers = ((Path(folder) / name).read_text().splitlines() for name in ('calls.in', 'answered'))
    met, counts = Counter(), Counter()
    for line, answered in zip(calls, answers):
        call = Call(line)
        expected, number = call.expected()
        good = answered == expected
        met[call.name, number] += 1
        counts['agree' if good else 'differ'] += 1
        if not good and counts['differ'] <= 5:
            print(f'FAILED  {line}\n        answered {answered}\n        expected {expected}')
        if call.name == 'export' and number == 0:
            counts['read by csv' if read_by_csv(call, answered) else 'not read by csv'] += 1
        elif number == 0:
            counts[call.name + ' by csv'] += written_by_csv(call.takes[0])
    print(f"the calls on lists: {counts['agree']} of {len(calls)} answers are those of the documents; Python's csv reads {counts['read by csv']} tables, and of "
          f"lists as it writes them {counts['import by csv']} were imported and {counts['rates by csv']} read back")
    for name, several in NUMBERS.items():
        print(f'  {name}: ' + ', '.join(f'{number}: {met[name, number]}' for number in sorted(several)))
    missing = [(name, number) for name, several in NUMBERS.items() for number in several if not met[name, number]]
    tests = [counts['agree'] == len(calls) == len(answers) > 0, counts['read by csv'] > 0 == counts['not read by csv'],
             counts['import by csv'] > 0 and counts['rates by csv'] > 0, not missing]
    for good, what in zip(tests, ['an answer is another', 'a table is read otherwise by csv', 'no list of csv was taken', f'not met: {missing}']):
        if not good:
            print('FAILED  ' + what)
    print(f'{sum(tests)} passed, {len(tests) - sum(tests)} failed')
    return all(tests)

def make(folder):
    dice = Random(SEED)
    with open(Path(folder) / 'calls.in', 'w') as out:
        out.writelines(a_call(dice) + '\n' for _ in range(CALLS))
    return True

if __name__ == '__main__':
    sys.exit(0 if {'make': make, 'compare': compare}[sys.argv[1]](sys.argv[2]) else 1)
