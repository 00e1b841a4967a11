"""Loss, gap and the check's verdict by document 01 ("Loss and gap", "Order"), W-202 and W-205, and how far two tables are apart by W-208, in Python's
whole numbers, which have no limit and never wrap."""
from math import isqrt
from packs import Refused, job_of, proposal_of

ROWS = {1: [-1, 1], 2: [1, -2, 1], 3: [-1, 3, -3, 1], 4: [1, -4, 6, -4, 1]}
LIMIT = 2000000000

def differences(job):
    """Every difference of a job, as its constant and its terms, by rows and columns: those down the columns with k, then those along the rows with
    the second constant. A line is one column."""
    rows, columns, down, across, second = job.shape
    cell = lambda row, column: row * columns + column
    out = [(job.k, [(cell(row + m, column), s) for m, s in enumerate(ROWS[down])])
           for row in range(rows - down) for column in range(columns)]
    return out + [(second, [(cell(row, column + m), s) for m, s in enumerate(ROWS[across])])
                  for row in range(rows) for column in range(columns - across)]

def term_sum(terms, v):
    """The sum of coefficient times rate over the terms of a difference or a link."""
    return sum(s * v[c] for c, s in terms)

def roughness(job, v, differences=differences):
    return sum(constant * term_sum(terms, v) ** 2 for constant, terms in differences(job))

def loss(job, v, differences=differences):
    return sum(w * (x - u) ** 2 for x, (u, w, _, _) in zip(v, job.cells)) + roughness(job, v, differences)

def farness(job, off, differences=differences):
    """Of what one table is off another: the weighted squares, and each constant times the squared differences (W-208)."""
    return sum(w * x * x for x, (_, w, _, _) in zip(off, job.cells)) + roughness(job, off, differences)

def least_off(weight, most):
    """The least whole number whose square times a positive weight is at least `most` (W-208: most is 4G)."""
    return isqrt(-(-most // weight) - 1) + 1 if most > 0 else 0

def residuals(job, v, multipliers, differences=differences):
    r = [2 * w * (x - u) for x, (u, w, _, _) in zip(v, job.cells)]
    for constant, terms in differences(job):
        d = term_sum(terms, v)
        for c, s in terms:
            r[c] += 2 * constant * d * s
    for (terms, _), y in zip(job.links, multipliers):
        for c, s in terms:
            r[c] += y * s
    return r

def box_term(r, v, lo, hi):
    return r * (v - lo) if r > 0 else -r * (hi - v)

def cell_term(r, v, w, lo, hi):
    box = box_term(r, v, lo, hi)
    if w == 0 or not -LIMIT <= r <= LIMIT:
        return box
    return min(box, -(-r * r // (4 * w)))

def cell_terms(job, v, r):
    return [cell_term(x, rate, w, lo, hi) for x, rate, (_, w, lo, hi) in zip(r, v, job.cells)]

def link_terms(job, v, multipliers):
    return [y * (b - term_sum(terms, v)) for (terms, b), y in zip(job.links, multipliers)]

def terms_by_place(job, v, multipliers, differences=differences):
    """Every term of the gap: the place of a cell is its number, that of a link n plus its number."""
    return cell_terms(job, v, residuals(job, v, multipliers, differences)) + link_terms(job, v, multipliers)

def gap(job, v, multipliers, differences=differences):
    return sum(terms_by_place(job, v, multipliers, differences))

def largest(job, v, multipliers):
    """The place of the largest term, the lowest if several are equal (W-202)."""
    terms = terms_by_place(job, v, multipliers)
    return terms.index(max(terms))

def verdict(job, v, multipliers):
    """Number, place, F and G for two packs that read well."""
    for i, (x, (_, _, lo, hi)) in enumerate(zip(v, job.cells)):
        if not lo <= x <= hi:
            return [7, i, 0, 0]
    for j, (terms, b) in enumerate(job.links):
        if term_sum(terms, v) > b:
            return [8, j, 0, 0]
    g = gap(job, v, multipliers)
    return [9, largest(job, v, multipliers), 0, 0] if g > job.tolerance else [0, 0, loss(job, v), g]

def checked(job_pack, proposal_pack):
    """Number, place, F and G for any two packs."""
    try:
        job = job_of(job_pack)
        return verdict(job, *proposal_of(proposal_pack, job))
    except Refused as refused:
        return [*refused.args, 0, 0]
