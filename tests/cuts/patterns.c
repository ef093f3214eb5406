/* The list of patterns for 2 to 6 ports, by the paper's rules and by nothing else: for odd i the block A(i) and then B(i)
 * reversed, for even i B(i) and then A(i) reversed. And which pattern each mark of a plan is to meet. */
#include "world.h"

#include <stdlib.h>
#include <string.h>

enum { MOST = 6, COUNT = 265 };

static struct list {
    unsigned count;
    uint8_t at[COUNT][MOST];
} lists[MOST + 1];

/* A(i): from each t of length n-1, put n where t holds i, and put i at jack n */
static void step_a(unsigned n, unsigned i, const uint8_t *t, uint8_t *out)
{
    for (unsigned j = 0; j < n - 1; j++)
        out[j] = (uint8_t)(t[j] == i ? n : t[j]);
    out[n - 1] = (uint8_t)i;
}

/* B(i): from each t of length n-2, add one to entries of i or more, insert n as the entry at jack i, put i at jack n */
static void step_b(unsigned n, unsigned i, const uint8_t *t, uint8_t *out)
{
    for (unsigned j = 0, k = 0; j < n - 1; j++)
        out[j] = (uint8_t)(j == i - 1 ? n : t[k] >= i ? t[k] + 1u : t[k]), k += j != i - 1;
    out[n - 1] = (uint8_t)i;
}

/* a block after what the list for n has, forward or reversed */
static void block(unsigned n, unsigned i, int is_a, int reversed)
{
    const struct list *from = &lists[n - (is_a ? 1 : 2)];
    struct list *to = &lists[n];

    for (unsigned k = 0; k < from->count; k++)
        (is_a ? step_a : step_b)(n, i, from->at[reversed ? from->count - 1 - k : k], to->at[to->count++]);
}

void patterns_make(void)
{
    lists[2].count = 1;
    memcpy(lists[2].at[0], "\2\1", 2);
    for (unsigned n = 3; n <= MOST; n++)
        for (unsigned i = 1; i < n; i++) {
            block(n, i, i % 2 == 1, 0);
            block(n, i, i % 2 == 0, 1);
        }
    /* cases of the paper: rank 3 of 4 ports is 3412, 8 is 2143; of 5 ports rank 31 is 41523; the counts */
    if (lists[3].count != 2 || lists[4].count != 9 || lists[5].count != 44 || lists[6].count != COUNT ||
        memcmp(lists[4].at[3], "\3\4\1\2", 4) != 0 || memcmp(lists[4].at[8], "\2\1\4\3", 4) != 0 ||
        memcmp(lists[5].at[31], "\4\1\5\2\3", 5) != 0)
        abort();
}

unsigned plan_marks(void)
{
    unsigned marks = 0;

    for (unsigned leg = 0; leg < plan->legs; leg++)
        marks += (unsigned)abs(plan->run[leg]) + 1;
    return marks;
}

const uint8_t *mark_pattern(uint64_t mark)
{
    const struct list *list = &lists[plan->ports];
    unsigned leg = 0;
    int step, rank;

    for (; mark > (unsigned)abs(plan->run[leg]); leg++)
        mark -= (unsigned)abs(plan->run[leg]) + 1;
    step = plan->run[leg] < 0 ? -(int)mark : (int)mark;
    rank = ((int)plan->start[leg] + step) % (int)list->count;
    return list->at[rank < 0 ? rank + (int)list->count : rank];
}
