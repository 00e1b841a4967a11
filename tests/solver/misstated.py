"""What W-208 does not say and could be taken to: each answers whether a table tells that it is wrong."""
from solver.parts import in_parts
from solver.slips import constants_exchanged, orders_exchanged, over_the_end, stride_one
from solver.tried import by_box, by_weight, together
from solver.ways import box_rooms, last, link_rooms
from verdict import differences, farness, residuals

def three_gaps(tried):
    """3*G in place of 4*G."""
    return not all(together(tried, other, 3) for other in tried.others())

def rate_by_three_gaps(tried):
    """A rate within r where w*r^2 is at least 3*G."""
    return not all(by_weight(tried, other, 3) for other in tried.others())

def nearer_end(tried):
    """A rate within the nearer end of its box."""
    return not all(by_box(tried, other, min) for other in tried.others())

def smoothed(tried, wrong):
    """Whether by wrong differences a table is farther off than 4*G."""
    return any(farness(tried.job, other.off, wrong) > 4 * tried.gap * other.table.d ** 2 for other in tried.others())

# Twice would be true. With W the weighted squares, R the smoothing sums, C the terms by weight and B all others, a loss of at most F leaves
# W + R <= B + 2*sqrt(C*W), so W + 2*R <= 2*B + 4*sqrt(C*W) - W <= 2*B + 4*C <= 4*G.
def smoothing_thrice(tried):
    """The smoothing sums counted three times."""
    return smoothed(tried, lambda job: differences(job) * 3)

def farther(tried, step, asked, most):
    """Whether the last table on the way from the best along a step is farther off than 4*G, if this is asked of it and a loss of at most `most`."""
    return not together(tried, tried.other(last(tried.job, tried.best.table, step, most, asked)))

def downhill(tried):
    """The step from the best table in which the loss falls most."""
    table = tried.best.table
    return [-r for r in residuals(in_parts(tried.job, table.d), table.x, [0] * len(tried.job.links))]

def boxes_not_asked(tried):
    """A table that meets the links alone."""
    return farther(tried, downhill(tried), [link_rooms], tried.loss)

def links_not_asked(tried):
    """A table that meets the boxes alone."""
    step = downhill(tried)
    rooms = box_rooms(tried.job, tried.best.table, step)
    return farther(tried, [s if room > 0 else 0 for s, (_, room) in zip(step, rooms)], [box_rooms], tried.loss)

def larger_loss(tried):
    """A loss of at most F + G."""
    return farther(tried, tried.best.off, [box_rooms, link_rooms], tried.loss + tried.gap)

MISSTATED = (three_gaps, rate_by_three_gaps, nearer_end, smoothing_thrice, boxes_not_asked, links_not_asked, larger_loss)

# Of grids alone. With the differences across left out, less is said than W-208 says, and it is true.
MISSMOOTHED = (constants_exchanged, orders_exchanged, over_the_end, stride_one)
