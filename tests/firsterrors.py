"""The first error by which the prover refuses a wrong program, and whether it is about a fact. For the must-fail edits and for the mutants."""
import os
import re

# What rt says of an edit that it tried. Of one that is refused the first error follows, cut short.
TOLD = re.compile(r'^(?:rt: )?must-fail (\w+)/(\S+)\.edit: (.*)', re.M)
REFUSED = re.compile(r'^refused, as it must be(?: \((only [^()]*)\))?: (.*)')

# An error in a file: PATH:LINE:COLUMN: error: `DECLARATION`: what is wrong with it.
ERROR = re.compile(r'^(?:\./)?((?:src|specs|proofs)/\S+?):(\d+):\d+: error: `([^`]+)`: (.*)')

# A goal of a function that no file of proofs/ answers, because the prover finds its proof by itself: the place in the source, and the goal's name behind
# what it says.
NOT_FOUND = re.compile(r'^note: (?:\./)?(src/\S+?):(\d+):\d+: (it is not proved that .*?) \(`([^`]+)`\)')

# What the prover says where it never tried the declaration: a name, or a goal, that is not there.
NOT_TRIED = re.compile(r'is not in scope|can be named from here|has no field|was not admitted|no `mod` line|unused|^`goal\.[^`]*`: module ')

# In the proof of a function: what its contract says, what a loop keeps and that it ends, what a call asks for. The other goals (that a sum, a
# product or a cast fits, an index, a length, which variant a value is) are steps on the way there.
FACT_OF_A_FUNCTION = re.compile(r'^returns(?:-|$)|^loop-.*(?:init|preserved|smaller)(?:-\d+)?$|-requires(?:-|$)')


def told(log):
    """What rt says, in the log at this path, of each edit that it tried: by the crate's name and the edit's."""
    if not os.path.exists(log):
        return {}
    with open(log, encoding='utf-8') as f:
        return {(m[1], m[2]): m[3] for m in TOLD.finditer(f.read())}


def first_error(said):
    """Of what rt says of an edit: its first error as (place, declaration, message), or None; and the line itself, or why there is none."""
    if said is None:
        return None, 'rt says nothing of it'
    refused = REFUSED.match(said)
    if refused is None:
        return None, said[:200]
    line = refused[2]
    m, found = ERROR.match(line), NOT_FOUND.match(line)
    if m is None and found is None:
        return None, line[:200]
    error = (f'{m[1]}:{m[2]}', m[3], m[4]) if m else (f'{found[1]}:{found[2]}', found[4], found[3])
    return error, refused[1] or line[:200]


def no_fact(error, line):
    """Why a first error is not about a fact, or None. It names a declaration, which the prover read and tried: no name is missing there and no
    text is unreadable. In the proof of a function that declaration is a goal about its contract (`returns`), a loop's invariant (`init`, `preserved`),
    that a loop ends (`smaller`) or what a call asks for (`requires`), and no step such as that a sum fits."""
    if error is None:
        return f'its first error names no declaration: {line}'
    place, declaration, message = error
    if line.startswith('only ') or NOT_TRIED.search(message):
        return f'refused, but no fact was tried: {line}'
    if re.search(r'^src/|/(?:Answers|Invariants|Proof)\.antt:', place) and not FACT_OF_A_FUNCTION.search(declaration):
        return f'refused at {place} by `{declaration}`, which is a step and no fact'
    return None
