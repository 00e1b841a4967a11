#!/usr/bin/env python3
"""What ./run --propose and tools/propose.c have to say and to write, computed from the bytes of the input alone (W-207).

  tests/linked/words.py said FILE FOLDER [passes=NUMBER]    prints what ./run --propose FILE has to print
  tests/linked/words.py make FOLDER                         writes random inputs, FOLDER/i.in; FOLDER/inputs, a line for each, i and the passes given with it;
                                                            and what the tool has to tell of each, FOLDER/i.due, and to write, FOLDER/i.proposed
"""
import subprocess
import sys
from collections import Counter
from pathlib import Path
from random import Random

HERE = Path(__file__).resolve().parent
sys.path[:0] = [str(HERE), str(HERE.parent)]
from drawn import Call, damaged, refused_jobs, small, wide_or_thin, with_tolerance
from house.expect import outcome as house
from packs import MOST_INPUT, Job, Refused, job_of, number, packs_of, proposal_of
from passes import MOST_PASSES, outcome
from verdict import verdict

SEED, INPUTS = 7, 50
LINKED = 'proposal that honours links: '
REFUSED = {
    1: ('job pack, or its length: number unreadable, or spare bytes', 'offset in the job pack; 0 for its length; 8192 for an input that is longer'),
    2: ('job pack: number not allowed', 'offset in the job pack'),
    3: ('lo above hi', 'cell'),
    4: ('fewer positive weights than the order used; of a grid, fewer rows than the order down with as many positive weights as the order across', 'always 0'),
    5: ('link cells not rising, or coefficient 0', 'link'),
    10: ('house proposal: data too thin', 'cell'),
    14: (LINKED + 'no pass within the number given is accepted', 'the number of passes given'),
    20: ('house proposal: a grid of more than 12 columns', 'always 0'),
    21: (LINKED + 'passes not 1 to 200', 'always 0'),
}

def line(field, says):
    return f'  {field:<10} {says}\n'

class Asked:
    """An input with the passes given: the job, if it can be read, and number, place, count and bytes of the proposal that is asked for."""

    def __init__(self, given, passes):
        self.passes, self.job, self.pack = passes, None, b''
        try:
            self.pack = packs_of(given)[0]
        except Refused:
            self.answer = 1, MOST_INPUT if len(given) > MOST_INPUT else 0, 0, b''
            return
        try:
            self.job = job_of(self.pack)
        except Refused as refused:
            self.answer = *refused.args, 0, b''
            return
        self.answer = outcome(self.pack, passes, 1160) if self.job.links else self.house()

    def house(self):
        said, place, *out = house(self.job, 1024)
        return said, place, 0, bytes(out)

    def done(self):
        return self.answer[0] == 0

    def input(self, proposal):
        return number(len(self.pack)) + self.pack + proposal

    def checked(self, proposal):
        return verdict(self.job, *proposal_of(proposal, self.job))

    # ---- words

    def words(self):
        """Which proposal was asked for."""
        if self.job is None:
            return ''
        links = len(self.job.links)
        if links == 0:
            return 'the job has no links: asked for the house proposal\n'
        after = f'; it was accepted after {self.answer[2]}' if self.done() else ''
        several = f'{links} links: asked for the proposal that honours them' if links > 1 else '1 link: asked for the proposal that honours it'
        return f'the job has {several}, with at most {self.passes} pass{"es" * (self.passes != 1)}{after}\n'

    def advice(self):
        """What can be done where no pass is accepted."""
        if self.answer[0] != 14:
            return ''
        most = f'{MOST_PASSES} are the most that can be allowed'
        said, place, f, g = self.checked(self.house()[3])
        held = f'refused with {said}, place {place}; ./run target/proposed says what holds it back'
        taken = f'accepted, with a loss F of {f} and a gap G of {g}'
        return (line('passes', most if self.passes == MOST_PASSES else f'more may help: {most}, passes={MOST_PASSES}')
                + line('tolerance', f'T is {self.job.tolerance}: with a larger one a table of a larger gap is accepted, as long as it breaks no link')
                + line('house', f'the house proposal, which ignores links, is in target/proposed: it is {held if said else taken}'))

    def refusal(self):
        said, place, _, _ = self.answer
        return f'{said} {place}\n' + line(said, 'refused: ' + REFUSED[said][0]) + line(place, 'place: ' + REFUSED[said][1]) + self.advice()

    def accepted(self, folder):
        """What is said of a proposal that the check accepts."""
        values, _ = proposal_of(self.answer[3], self.job)
        said, _, f, g = self.checked(self.answer[3])
        assert said == 0
        out = ' '.join(map(str, [0, self.job.society, self.job.job, f, g, *values])) + '\n'
        out += line(0, 'accepted') + line(self.job.society, 'society') + line(self.job.job, 'job') + line(f, 'loss F')
        return out + line(g, 'gap G: no table that meets the job has a loss below F - G') + rates_said(folder, self.input(self.answer[3]))

def rates_said(folder, given):
    """What is said of the rates, as for any input of the checking program."""
    room = Path(folder) / 'rates'
    room.mkdir(exist_ok=True)
    (room / 'proposed.in').write_bytes(given)
    subprocess.run([sys.executable, HERE.parent / 'checker' / 'rates.py', room], stdout=subprocess.DEVNULL)
    return (room / 'proposed.rates').read_text()

def said(path, folder, passes=f'passes={MOST_PASSES}'):
    asked = Asked(Path(path).read_bytes(), int(passes.split('=')[1]))
    print(asked.words() + (asked.accepted(folder) if asked.done() else asked.refusal()), end='')
    return True

# ---- random inputs

def given_by(dice, call):
    """The input of a call's job, with a proposal behind it that is none, or without one."""
    return number(len(call.pack)) + call.pack + dice.choice((b'', b'', b'\0', b'\x80' * 40))

def inputs(dice):
    """Inputs with passes, and among them whole ones and damaged ones of any kind."""
    while True:
        call = dice.choice(with_tolerance(dice, small(dice), 8))
        if dice.random() < 0.4:
            call = damaged(dice, call)
        given = given_by(dice, call)
        yield (given if dice.random() < 0.95 else given[:dice.randrange(len(given))]), call.passes

def boxed(passes):
    """A job whose house proposal is accepted, and of whose passes none is: a box holds a value above what they bring it to."""
    return Call(Job(1, 1, [(2, 1, 0, 9), (1, 3, 3, 9)], [([(0, 1), (1, -1)], 0)], tolerance=5).pack(), passes)

def unlinked():
    """Document 01's first job, with passes that a job with links would be refused for."""
    return Call(Job(2, 1, [(0, 1, 0, 100), (7, 1, 0, 100), (0, 1, 0, 100)]).pack(), 0)

def make(folder):
    dice, met = Random(SEED), Counter()
    special = [*wide_or_thin(dice), boxed(MOST_PASSES - 1), boxed(MOST_PASSES), unlinked(), *list(refused_jobs(dice))[:3]]
    drawn = [(given_by(dice, call), call.passes) for call in special]
    random = inputs(dice)
    with open(Path(folder) / 'inputs', 'w') as out:
        for i in range(INPUTS):
            given, passes = drawn[i] if i < len(drawn) else next(random)
            asked, at = Asked(given, passes), Path(folder) / str(i)
            at.with_suffix('.in').write_bytes(given)
            at.with_suffix('.due').write_text(f'{asked.answer[0]} {asked.answer[1]}\n' + asked.words() + asked.advice())
            at.with_suffix('.proposed').write_bytes(asked.input(asked.answer[3]) if asked.done() else b'')
            met[asked.answer[0]] += 1
            met['house' if asked.done() and not asked.job.links else 'honours links' if asked.done() else 'refused'] += 1
            out.write(f'{i} {passes}\n')
    print('inputs: ' + ', '.join(f'{kind}: {count}' for kind, count in sorted(met.items(), key=str)))
    return all(met[kind] for kind in (0, *REFUSED, 'house', 'honours links'))

if __name__ == '__main__':
    sys.exit(0 if {'said': said, 'make': make}[sys.argv[1]](*sys.argv[2:]) else 1)
