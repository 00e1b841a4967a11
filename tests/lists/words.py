#!/usr/bin/env python3
"""What ./run and tools/list.c have to say of claims lists, computed from the lists alone (W-201).

  tests/lists/words.py table LIST FOLDER [NAME=NUMBER ..]    prints what ./run has to print of a list whose table is accepted
  tests/lists/words.py make FOLDER                           writes damaged lists, FOLDER/i.csv, and FOLDER/damaged: a line for each, i and what is given with it
  tests/lists/words.py compare FOLDER                        compares what the tool printed of each, FOLDER/i.answer and FOLDER/i.wrong; its last line is
                                                             'N passed, M failed'
"""
import re
import subprocess
import sys
from collections import Counter
from pathlib import Path
from random import Random

HERE = Path(__file__).resolve().parent
sys.path.insert(0, str(HERE.parent))
from expect import CLAIMS, TABLE, claims, export, import_, lines_of, numbers_of, rows_of, text_of, weight_of
from house.expect import outcome
from packs import Refused, job_of, number, proposal_of
from verdict import verdict

DAMAGED, SEED = 600, 16
USUAL = {'society': 0, 'job': 1, 'divisor': 100, 'order': 2, 'constant': 100, 'tolerance': 10 ** 15, 'floor': 0, 'ceiling': 10 ** 6}
ALLOWED = {'society': '0 to 7', 'job': '0 to 4294967295', 'divisor': '1 or more',
           'order': '0 to 4, where 0 is the house order 2, and less than the lines of data', 'constant': '1 to 1000', 'tolerance': '0 to 1000000000000000',
           'floor': '0 to 1000000', 'ceiling': '0 to 1000000, and no less than floor'}
SAYS = {'society': 'whose table it is', 'job': 'the number that its table is kept under',
        'divisor': 'a weight is the exposure over it, rounded down, and 1000 at most', 'order': 'that of the differences which are to be small',
        'constant': 'k, what smoothness counts beside closeness to the crude rates',
        'tolerance': 'T, the largest gap that is accepted; at its most hardly any table is refused, so that one comes out whose gap is yours to judge',
        'floor': 'no rate of the table is lower', 'ceiling': 'no rate of the table is higher'}
ARGUMENTS = ['divisor', 'society', 'job', 'order', 'constant', 'tolerance', 'floor', 'ceiling']
FIELDS = ['age', 'exposure', 'deaths']
SHOWN = 60

def given_by(words):
    return {**USUAL, **{name: int(x) for name, x in (word.split('=') for word in words)}}

def pack_of(text, given):
    return import_(text, *(given[name] for name in ARGUMENTS))

def line(field, says):
    return f'  {field:<10} {says}\n'

# ---- a list whose table is accepted

def rates_said(folder, given):
    """What is said of the rates, as for any input of the checking program."""
    (Path(folder) / 'of-list.in').write_bytes(given)
    subprocess.run([sys.executable, HERE.parent / 'checker' / 'rates.py', folder], stdout=subprocess.DEVNULL)
    return (Path(folder) / 'of-list.rates').read_text()

def table(path, folder, *words):
    text, given = Path(path).read_bytes(), given_by(words)
    ages, pack = [age for age, _, _ in rows_of(text, CLAIMS)], pack_of(text, given)
    job = job_of(pack)
    done, _, *proposal = outcome(job, 1024)
    values, _ = proposal_of(bytes(proposal), job)
    accepted, _, f, g = verdict(job, values, [])
    assert done == accepted == 0
    said = f'a claims list of {len(ages)} ages: cell 0 is age {ages[0]}, the last one age {ages[-1]}\n'
    said += 'made a job with these numbers; where you give none it is a round one and no advice: ./run LIST.csv divisor=10 constant=50 gives two others\n'
    said += ''.join(line(given[name], f'{name}: {SAYS[name]}; {ALLOWED[name]}') for name in USUAL)
    said += ' '.join(map(str, [0, job.society, job.job, f, g, *values])) + '\n'
    said += line(0, 'accepted') + line(job.society, 'society') + line(job.job, 'job') + line(f, 'loss F')
    said += line(g, 'gap G: no table that meets the job has a loss below F - G')
    said += rates_said(folder, number(len(pack)) + pack + bytes(proposal)) + 'the table as a list, which is in target/table.csv:\n'
    sys.stdout.buffer.write(said.encode() + export(values, ages[0]))
    return True

# ---- what is wrong with a list

def shown(line):
    """A line as it stands in the file, with escapes for bytes that cannot be printed."""
    escapes = {10: r'\n', 13: r'\r', 9: r'\t', 92: r'\\'}
    text = ''.join(escapes.get(x) or (chr(x) if 32 <= x <= 126 else f'\\x{x:02X}') for x in line[:SHOWN])
    return text + '...' * (len(line) > SHOWN)

BYTE = {'\n': 'a line feed alone: every line must end in CR LF', '\r': 'a carriage return alone: every line must end in CR LF', '"': 'a quote', ' ': 'a blank',
        '\t': 'a tab', ';': 'a semicolon', '.': 'a point', '-': 'a sign', '+': 'a sign'}

def wrong_header(line):
    marks = [(line == b'', 'it is empty'), (line[:3] == b'\xef\xbb\xbf' or line[:2] in (b'\xff\xfe', b'\xfe\xff'), 'a byte order mark'),
             (b'\n' in line, 'its lines end in a line feed alone: every line must end in CR LF'), (b'\r' in line, 'a carriage return alone'),
             (re.sub(rb'[ \t"]', b'', line).lower() == CLAIMS, 'the header has blanks, quotes or capitals'), (line[:1].isdigit(), 'the header is missing'),
             (line.startswith(TABLE), 'this is the header of a table'), (b';' in line, 'a semicolon'), (True, 'it is not the header')]
    return next(words for found, words in marks if found)

def wrong_line(line):
    """What is wrong with a malformed line of data: its first byte that is none of a number, its count of fields, or a field."""
    found = re.search(rb'[^0-9,]', line)
    if found:
        before = line[:found.start()].count(b',')
        where = f'in the {FIELDS[before]}' if before < 3 else 'behind the deaths'
        return f'byte {found.start() + 1}, {where}, is {BYTE.get(found.group().decode("latin-1"), "no digit")}'
    fields = line.split(b',')
    if len(fields) != 3:
        return f'{len(fields)} field{"s" * (len(fields) > 1)} where 3 are asked for, age,exposure,deaths'
    for name, digits in zip(FIELDS, fields):
        if digits == b'':
            return f'the field {name} is empty'
        if digits[:1] == b'0' and digits != b'0':
            return f'the field {name} has a leading zero'
        if int(digits) > 10 ** 9:
            return f'the field {name} is above 1000000000'

def malformed(place, line):
    if place == 1:
        return wrong_header(line)
    if place == 122:
        return 'a list has at most 120 lines of data'
    return wrong_line(line) if line else 'it is empty: take it out'

def not_allowed(given, count):
    """The first number, in pack order, that a job does not allow."""
    tests = [('society', given['society'] <= 7), ('job', given['job'] < 2 ** 32), ('', 2 <= count), ('order', given['order'] <= 4 and (given['order'] or 2) < count),
             ('constant', 1 <= given['constant'] <= 1000), ('tolerance', given['tolerance'] <= 10 ** 15), ('floor', given['floor'] <= 10 ** 6),
             ('ceiling', given['ceiling'] <= 10 ** 6)]
    name = next(name for name, good in tests if not good)
    return f'{name}={given[name]} is not allowed: give {ALLOWED[name]}' if name else f'the list has {count} line{"s" * (count != 1)} of data, and a job needs 2'

def few_weights(given, rows):
    positive, order = sum(weight_of(e, given['divisor']) > 0 for _, e, _ in rows), given['order'] or 2
    return f'{positive} of {len(rows)} weights {"is" if positive == 1 else "are"} above 0, and the order {order} needs {order}: '

def wrong(refused, place, text, given):
    """The first words that have to be said."""
    lines = lines_of(text)
    row = [int(x) for x in lines[place - 1].split(b',')] if refused in (17, 18) else None
    if refused == 16:
        return malformed(place, lines[place - 1])
    if refused == 17:
        due = int(lines[place - 2].split(b',')[0]) + 1
        return f'the age {row[0]} is not {due}, which is due after line {place - 1}: '
    if refused == 18:
        return f'the deaths {row[2]} are above the exposure {row[1]}: '
    if refused == 19:
        return 'divisor=0 is not allowed: give 1 or more'
    if refused == 3:
        return f'floor={given["floor"]} is above ceiling={given["ceiling"]}: '
    rows = rows_of(text, CLAIMS)
    if refused == 10:
        return f'the weights say too little of age {rows[place][0]}, in line {place + 2}: '
    return not_allowed(given, len(rows)) if refused == 2 else few_weights(given, rows)

def answered(text, given):
    """The number and place of a list that is refused, by the import or the house proposal."""
    try:
        return outcome(job_of(pack_of(text, given)), 1024)[:2]
    except Refused as refused:
        return list(refused.args)

# ---- damaged lists

def one(dice):
    """A list and the numbers given with it. Few weights at the young ages alone are too thin for order 4."""
    if dice.random() < 0.03:
        rows = [[20 + i, 50 * (i < 4), 0] for i in range(dice.randrange(60, 120))]
        return text_of(dice, CLAIMS, rows), {**USUAL, 'divisor': 50, 'order': 4, 'constant': 1}
    given = dict(zip(ARGUMENTS, numbers_of(dice))) if dice.random() < 0.3 else dict(USUAL)
    return text_of(dice, CLAIMS, claims(dice)), given

def make(folder):
    dice, made = Random(SEED), []
    while len(made) < DAMAGED:
        text, given = one(dice)
        if answered(text, given)[0] != 0:
            (Path(folder) / f'{len(made)}.csv').write_bytes(text)
            made.append(' '.join([str(len(made)), *(f'{name}={x}' for name, x in given.items() if x != USUAL[name])]))
    (Path(folder) / 'damaged').write_text('\n'.join(made) + '\n')
    return True

def fault(text, given, answer, said):
    """What is not as it should be in what is said of a list; None where all is."""
    refused, place = answered(text, given)
    if answer != f'{refused} {place}\n':
        return f'the answer is {answer.strip()} and not {refused} {place}'
    about = line(f'line {place}', shown(lines_of(text)[place - 1])) if refused in (16, 17, 18) else ''
    words = wrong(refused, place, text, given)
    if not said.startswith(about + line('wrong', words)[:-1]) or said.count('\n') != about.count('\n') + 1:
        return f'what is said is\n{said}and not\n{about}.. {words}'
    return None

def compare(folder):
    met, faults = Counter(), 0
    for entry in (Path(folder) / 'damaged').read_text().splitlines():
        i, *words = entry.split()
        text, given = (Path(folder) / f'{i}.csv').read_bytes(), given_by(words)
        found = fault(text, given, *((Path(folder) / f'{i}.{name}').read_text() for name in ('answer', 'wrong')))
        met[answered(text, given)[0]] += 1
        faults += found is not None
        if found and faults <= 5:
            print(f'FAILED  list {text[:300]!r} {" ".join(words)}: {found}')
    print(f'what is wrong is said of {sum(met.values()) - faults} of {sum(met.values())} damaged lists; numbers ' +
          ', '.join(f'{number}: {count}' for number, count in sorted(met.items())))
    tests = [faults == 0, set(met) == {2, 3, 4, 10, 16, 17, 18, 19}]
    print(f'{sum(tests)} passed, {len(tests) - sum(tests)} failed')
    return all(tests)

sys.exit(0 if {'table': table, 'make': make, 'compare': compare}[sys.argv[1]](*sys.argv[2:]) else 1)
