/* See met.h. */
#include "met.h"
#include "../../include/bench.h"
#include "shapes.h"

#include <inttypes.h>
#include <stdio.h>

enum { SHAPES = 2, MOST_HOUSE_COLUMNS = 12 };
static const char *const shape_names[SHAPES] = {"lines", "grids"};
const char *const way_names[WAYS] = {"rows alone", "columns alone", "both together"};

/* What a draft turned in one way can meet: the numbers of the check, of 7 and 9 those whose place is another now, and links whose terms stay in their
 * order, are put plainly backwards, or neither. */
enum kind { ACCEPTED, FEW_WEIGHTS, OUTSIDE_BOX, LINK_BROKEN, GAP_ABOVE, BOX_MOVED, GAP_MOVED, AS_THEY_WERE, BACKWARDS, OTHERWISE, KINDS };
static const char *const KIND_NAMES[KINDS] = {"0", "4", "7", "8", "9", "7 moved", "9 moved", "same", "backwards", "otherwise"};
enum { NUMBERS = GAP_ABOVE + 1 };
static const uint64_t NUMBER[NUMBERS] = {BENCH_DONE, BENCH_FEW_WEIGHTS, BENCH_OUTSIDE_BOX, BENCH_LINK_BROKEN, BENCH_GAP_ABOVE_TOLERANCE};

static uint64_t met[SHAPES][WAYS][KINDS];

/* Lines by their order field, grids by their order down and across, drafts of full size, and grids that are too wide for the house. */
static uint64_t fields[GRID], orders[MOST_ORDER][MOST_ORDER], full[SHAPES], wide;

/* Of a link with two terms or more, from the cells where its terms go in their turn. */
static enum kind order_of(const struct twin_job *job, enum way way, const struct twin_link *link)
{
    int64_t rises = 0;
    for (int64_t t = 1; t < link->terms; t++)
        rises += turned_cell(job, way, link->cell[t - 1]) < turned_cell(job, way, link->cell[t]);
    return rises == link->terms - 1 ? AS_THEY_WERE : rises == 0 ? BACKWARDS : OTHERWISE;
}

void met_shape(const struct twin_job *job)
{
    bool grid = shape_is_grid(job);
    if (grid)
        orders[job->down - 1][job->across - 1]++;
    else
        fields[job->order_field]++;
    full[grid] += job->cells == MOST_CELLS && job->links == MOST_LINKS;
    wide += job->columns > MOST_HOUSE_COLUMNS;
}

void met_turned(const struct twin_job *job, enum way way, uint64_t number, uint64_t place, uint64_t turned_place)
{
    uint64_t *kinds = met[shape_is_grid(job)][way];
    for (int i = 0; i < NUMBERS; i++)
        kinds[i] += number == NUMBER[i];
    kinds[BOX_MOVED] += number == BENCH_OUTSIDE_BOX && place != turned_place;
    kinds[GAP_MOVED] += number == BENCH_GAP_ABOVE_TOLERANCE && place != turned_place;
    for (int64_t l = 0; l < job->links && number != BENCH_FEW_WEIGHTS; l++)
        if (job->link[l].terms > 1)
            kinds[order_of(job, way, &job->link[l])]++;
}

/* A line stays as it is or is turned as a whole, and so is a grid with both together; a grid's other ways mix. */
static bool can_meet(int shape, int way, int kind)
{
    bool stays = shape == 0 && way == COLUMNS_ALONE, whole = way == BOTH_TOGETHER || (shape == 0 && way == ROWS_ALONE);
    switch (kind) {
    case BOX_MOVED:
    case GAP_MOVED: return !stays;
    case AS_THEY_WERE: return !whole;
    case BACKWARDS: return !stays;
    case OTHERWISE: return !stays && !whole;
    default: return true;
    }
}

static void print_way(int shape, int way)
{
    printf("%-6s %-14s", shape_names[shape], way_names[way]);
    for (int kind = 0; kind < KINDS; kind++)
        if (can_meet(shape, way, kind))
            printf("%10" PRIu64, met[shape][way][kind]);
        else
            printf("%10s", "-");
    printf("\n");
}

static void print_turned(void)
{
    printf("drafts by the check's number, those of 7 and 9 whose place moved, and links by the new order of their terms\n%-21s", "");
    for (int kind = 0; kind < KINDS; kind++)
        printf("%10s", KIND_NAMES[kind]);
    printf("\n");
    for (int row = 0; row < SHAPES * WAYS; row++)
        print_way(row / WAYS, row % WAYS);
}

static void print_shapes(void)
{
    printf("lines of order field 0 to 4:");
    for (int field = 0; field < GRID; field++)
        printf(" %" PRIu64, fields[field]);
    printf("\ngrids of order down 1 to 4, each with order across 1 to 4:");
    for (int i = 0; i < MOST_ORDER * MOST_ORDER; i++)
        printf("%s %" PRIu64, i > 0 && i % MOST_ORDER == 0 ? "," : "", orders[i / MOST_ORDER][i % MOST_ORDER]);
    printf("\nof full size: %" PRIu64 " lines, %" PRIu64 " grids; of more than %d columns: %" PRIu64 "\n", full[0], full[1], MOST_HOUSE_COLUMNS, wide);
}

void met_print(void)
{
    print_turned();
    print_shapes();
}

static int judge_way(int shape, int way)
{
    int wrong = 0;
    for (int kind = 0; kind < KINDS; kind++) {
        bool can = can_meet(shape, way, kind);
        if (can != (met[shape][way][kind] > 0))
            wrong = printf("FAILED  %s, %s: %s '%s'\n", shape_names[shape], way_names[way], can ? "never" : "there was", KIND_NAMES[kind]);
    }
    return wrong != 0;
}

static int judge_shapes(void)
{
    bool all = full[0] > 0 && full[1] > 0 && wide > 0;
    for (int field = 0; field < GRID; field++)
        all = all && fields[field] > 0;
    for (int i = 0; i < MOST_ORDER * MOST_ORDER; i++)
        all = all && orders[i / MOST_ORDER][i % MOST_ORDER] > 0;
    if (!all)
        printf("FAILED  some order or size was never drawn\n");
    return !all;
}

int met_judge(void)
{
    int wrong = judge_shapes();
    for (int row = 0; row < SHAPES * WAYS; row++)
        wrong |= judge_way(row / WAYS, row % WAYS);
    return wrong;
}
