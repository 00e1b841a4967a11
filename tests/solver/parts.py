"""Tables with fractions (document 01, "Loss and gap"): a whole number d, and whole numbers x that stand for x/d."""
from copy import copy
from typing import NamedTuple
from verdict import loss, term_sum

class Table(NamedTuple):
    d: int
    x: list

def in_parts(job, d):
    """The job in parts of 1/d: its whole tables are the job's tables in such parts, and each one's loss is d^2 times as large."""
    out = copy(job)
    out.cells = [(d * u, w, d * lo, d * hi) for u, w, lo, hi in job.cells]
    out.links = [(terms, d * b) for terms, b in job.links]
    return out

def meets(job, table):
    job = in_parts(job, table.d)
    in_boxes = all(lo <= x <= hi for x, (_, _, lo, hi) in zip(table.x, job.cells))
    return in_boxes and all(term_sum(terms, table.x) <= b for terms, b in job.links)

def scaled_loss(job, table):
    """d^2 times the loss."""
    return loss(in_parts(job, table.d), table.x)
