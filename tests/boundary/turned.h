/* Drafts written in reverse (document 02, W-213): the rows, the columns or both run the other way, with boxes, weights and link cells. A line is one
 * column, so that columns alone leave it as it is. */
#ifndef TURNED_H
#define TURNED_H

#include "drafts.h"

enum way { ROWS_ALONE, COLUMNS_ALONE, BOTH_TOGETHER, WAYS };

/* Where a cell's numbers stand in the turned draft, which is also where the numbers come from that stand in this cell there. */
int64_t turned_cell(const struct twin_job *job, enum way way, int64_t cell);

/* The draft turned. Links keep their order, so that multipliers stay; a link's terms are in rising order of cells again. */
void turned_draft(const struct draft *draft, enum way way, struct draft *turned);

#endif
