#!/usr/bin/env python3
"""What tools/reversed.c has to write and say of inputs of the checking program, computed from their bytes alone (W-213).

  tests/checker/reversed.py FOLDER      takes of the inputs FOLDER/i.in, whose lines are FOLDER/i.line, the first of each kind

FOLDER/reversed.list has them, a line for each way: i, the way, and what the tool is asked to say, which is `words` for an accepted table and else the
place that refuses it in reverse; nothing for an input that cannot be read. FOLDER/i.WAY is the input in reverse, FOLDER/i.WAY.checked the checking
program's line for that, FOLDER/i.WAY.said what the tool says. It ends with 1 where a kind is missing without which a comparison says little.
"""
import sys
from copy import copy
from pathlib import Path

sys.path.insert(0, str(Path(__file__).resolve().parents[1]))
from packs import Refused, job_of, number, packs_of, proposal_of, proposal_pack
from verdict import verdict

WAYS = ['rows', 'columns', 'both']
UNREADABLE = [f'refused with {refused}' for refused in range(1, 7)]
ANSWERS = ['accepted with links', 'accepted', 'refused with 9 at a cell', 'refused with 8', 'refused with 9 at a link', 'refused with 7']
READABLE = [f'{form} {answer}' for answer in ANSWERS for form in ('grid', 'line')]
# In this order few inputs find most that can be wrong.
KINDS = UNREADABLE[:1] + READABLE + UNREADABLE[1:]
SAID = {('line', 'rows'): 'its cells from the last to the first', ('line', 'both'): 'its cells from the last to the first',
        ('line', 'columns'): 'a job that is no grid has one column, so nothing moves',
        ('grid', 'rows'): 'its rows from the last to the first', ('grid', 'columns'): 'its columns from the last to the first',
        ('grid', 'both'): 'its rows and its columns from the last to the first, so every cell'}

# ---- in reverse

def turned(job, way, numbers):
    """The list of what each cell has, in reverse, by rows."""
    columns = job.shape.columns
    rows = [numbers[at:at + columns] for at in range(0, len(numbers), columns)]
    if way != 'rows':
        rows = [row[::-1] for row in rows]
    if way != 'columns':
        rows = rows[::-1]
    return [x for row in rows for x in row]

def turned_job(job, way):
    """The job in reverse. Its links keep their order, and the cells of a link rise."""
    new, origin = copy(job), turned(job, way, range(len(job.cells)))
    new.cells = turned(job, way, job.cells)
    new.links = [(sorted((origin.index(cell), s) for cell, s in terms), b) for terms, b in job.links]
    return new

# ---- what is said

def form_of(job):
    return 'grid' if job.is_grid() else 'line'

def place_said(job, way, number, place):
    """The line that tells where what a refusal in reverse names stands in the input as it is."""
    link = place if number == 8 else place - len(job.cells)
    if link >= 0:
        at, where = place, f'link {link}, which keeps its number'
    else:
        at = turned(job, way, range(len(job.cells)))[place]
        row, column = divmod(at, job.shape.columns)
        where = f'cell {at} (row {row}, column {column})' if job.is_grid() else f'cell {at}'
    return f'  {at:<10} where place {place} stands in the input as it is: {where}\n'

def complaint(line):
    refused, place = line.split()
    return (f'reversed: this input cannot be read, so it is not reversed: it is refused with {refused}, place {place}'
            '; ./run FILE says what is wrong there, correct that first\n')

# ---- what is written

def kind_of(job, multipliers, line):
    """One of READABLE, or None. Of accepted lines without links only those of the house order count; links count where they and their terms have an order."""
    refused, place = line.split()[:2]
    ordered = any(len(terms) > 1 for terms, _ in job.links) and multipliers != multipliers[::-1]
    if refused == '9':
        kind = 'refused with 9 at a ' + ('cell' if int(place) < len(job.cells) else 'link')
    elif refused != '0':
        kind = 'refused with ' + refused
    elif ordered:
        kind = 'accepted with links'
    else:
        kind = 'accepted' if not job.links and (job.is_grid() or job.order == 0) else None
    return kind and f'{form_of(job)} {kind}'

def write_turned(path, job, values, multipliers, line, way):
    """The files of an input and a way; returns what the tool is asked to say."""
    new, v = turned_job(job, way), turned(job, way, values)
    refused, place, _, _ = verdict(new, v, multipliers)
    accepted = line[0] == '0'
    pack = new.pack()
    told = [*line.split()[:5], *v] if accepted else [line.split()[0], place]
    said = f'in reverse: {SAID[form_of(job), way]}\n' if accepted else place_said(job, way, refused, place)
    path.with_suffix('.' + way).write_bytes(number(len(pack)) + pack + proposal_pack(v, multipliers))
    path.with_suffix(f'.{way}.checked').write_text(' '.join(str(x) for x in told) + '\n')
    path.with_suffix(f'.{way}.said').write_text(said)
    return 'words' if accepted else place

def listed(path, line, job=None, values=None, multipliers=None):
    """The lines of the list for an input, which has no job where it cannot be read."""
    if job:
        return ''.join(f'{path.stem} {way} {write_turned(path, job, values, multipliers, line, way)}\n' for way in WAYS)
    path.with_suffix('.rows').write_bytes(b'')
    path.with_suffix('.rows.said').write_text(complaint(line))
    return f'{path.stem} rows\n'

def main(folder):
    found = {}
    for path in sorted(Path(folder).glob('*.in')):
        line = path.with_suffix('.line').read_text()
        try:
            job_pack, pack = packs_of(path.read_bytes())
            job = job_of(job_pack)
            values, multipliers = proposal_of(pack, job)
        except Refused:
            found.setdefault('refused with ' + line[0], (path, line))
        else:
            found.setdefault(kind_of(job, multipliers, line), (path, line, job, values, multipliers))
    missing = [kind for kind in KINDS if kind not in found]
    Path(folder, 'reversed.list').write_text(''.join(listed(*found[kind]) for kind in KINDS if kind in found))
    print('in reverse: ' + (', '.join(missing) + ' missing' if missing else f'{len(READABLE)} kinds of inputs, and {len(UNREADABLE)} that cannot be read'))
    return not missing

sys.exit(0 if main(sys.argv[1]) else 1)
