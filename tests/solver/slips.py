"""Losses and gaps that are wrong and look right (document 01, "Slips that look right", and the like of grids): the solver's optima alone have to tell
each of them."""
from house.expect import matrix, rounded, solved
from packs import Grid, Job
from solver.bounds import band
from verdict import ROWS, box_term, cell_terms, differences, link_terms, residuals, term_sum

# ---- wrong gaps, of any job

def two_dropped(job, v, multipliers):
    """The residual without its factor 2."""
    own, full = residuals(job, v, [0] * len(multipliers)), residuals(job, v, multipliers)
    return sum(cell_terms(job, v, [r - x // 2 for r, x in zip(full, own)])) + sum(link_terms(job, v, multipliers))

def rounded_down(job, v, multipliers):
    """r^2/(4w) rounded down."""
    total = sum(link_terms(job, v, multipliers))
    for r, x, (_, w, lo, hi) in zip(residuals(job, v, multipliers), v, job.cells):
        box = box_term(r, x, lo, hi)
        total += min(box, r * r // (4 * w)) if w else box
    return total

def room_forgotten(job, v, multipliers):
    """A link's unused room read as 0."""
    return sum(cell_terms(job, v, residuals(job, v, multipliers)))

def no_gap(job, v, multipliers):
    """A gap of 0 for every table."""
    return 0

SLIPS = (two_dropped, rounded_down, room_forgotten, no_gap)

# ---- wrong differences, of grids

def split(job):
    """The differences down the columns and those along the rows."""
    count = (job.shape.rows - job.shape.down) * job.shape.columns
    return differences(job)[:count], differences(job)[count:]

def constants_exchanged(job):
    """The two constants exchanged."""
    down, across = split(job)
    return [(job.shape.second, terms) for _, terms in down] + [(job.k, terms) for _, terms in across]

def orders_exchanged(job):
    """The two orders exchanged."""
    rows, columns, down, across, second = job.shape
    return differences(Job(Grid(rows, columns, across, down, second), job.k, job.cells))

def over_the_end(job):
    """Differences across that go over a row's end."""
    starts = range(len(job.cells) - job.shape.across)
    return split(job)[0] + [(job.shape.second, [(i + m, s) for m, s in enumerate(ROWS[job.shape.across])]) for i in starts]

def stride_one(job):
    """Differences down with the stride 1."""
    down, across = split(job)
    return [(k, [(terms[0][0] + m, s) for m, (_, s) in enumerate(terms)]) for k, terms in down] + across

def second_left_out(job):
    """The differences across left out."""
    return split(job)[0]

WRONG_DIFFERENCES = (constants_exchanged, orders_exchanged, over_the_end, stride_one, second_left_out)

def best_of(job, wrong):
    """The whole table that wrong differences would call the best, links ignored; None if there is none, or if it breaks a link."""
    v, _ = solved(matrix(job, wrong), band(job, wrong), [u * w for u, w, _, _ in job.cells])
    if v is None:
        return None
    table = [rounded(x, lo, hi) for x, (_, _, lo, hi) in zip(v, job.cells)]
    return None if any(term_sum(terms, table) > b for terms, b in job.links) else table
