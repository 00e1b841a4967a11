/* Tests of the twin by itself: one of them, counted, those of grids, those of a fetch that checks, those of counts of slots, those of terms, those of
 * comma lists, and those of proposals that honour links. */
#ifndef TWIN_TABLES_H
#define TWIN_TABLES_H

void expect(int holds, const char *what);

void select_tables(void);
void fetched_tables(void);
void counts_tables(void);
void largest_tables(void);
void comma_tables(void);
void ordering_tables(void);

#endif
