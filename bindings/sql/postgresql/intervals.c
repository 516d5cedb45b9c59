/* SPDX-License-Identifier: Apache-2.0 */
/* Intervals of keys: sorted, joined, and made fewer. */
#include "intervals.h"

#include "miscadmin.h"

int order_of_ends(const struct end *one, const struct end *other)
{
    return order_of_bytes(one->bytes, one->length, other->bytes, other->length);
}

void add_interval_to(struct interval_list *list, struct interval interval)
{
    if (list->count == list->room)
    {
        size_t room = list->room == 0 ? 16 : 2 * list->room;
        struct interval *more = palloc_extended(room * sizeof *more, MCXT_ALLOC_HUGE);
        if (list->count > 0)
        {
            memcpy(more, list->at, list->count * sizeof *more);
            pfree(list->at);
        }
        list->at = more;
        list->room = room;
    }
    list->at[list->count++] = interval;
}

static int order_of_starts(const void *one, const void *other)
{
    return order_of_ends(&((const struct interval *)one)->lower, &((const struct interval *)other)->lower);
}

void join_intervals(struct interval_list *list)
{
    struct interval *at = list->at;
    size_t left = 0;
    if (list->count == 0)
        return;
    qsort(at, list->count, sizeof *at, order_of_starts);
    for (size_t place = 0; place < list->count; place++)
    {
        if (left == 0 || order_of_ends(&at[place].lower, &at[left - 1].upper) > 0)
            at[left++] = at[place];
        else if (order_of_ends(&at[place].upper, &at[left - 1].upper) > 0)
            at[left - 1].upper = at[place].upper;
    }
    list->count = left;
}

/* The first eight bytes of an end as a number. */
static double number_of(const struct end *end)
{
    uint64 number = 0;
    for (size_t place = 0; place < sizeof number; place++)
        number = number << 8 | (place < end->length ? end->bytes[place] : 0);
    return (double)number;
}

double width_between(const struct end *lower, const struct end *upper)
{
    return number_of(upper) - number_of(lower);
}

static int order_of_widths(const void *one, const void *other)
{
    double left = *(const double *)one, right = *(const double *)other;
    return (left < right) - (left > right);
}

/* The gap before the interval at a place. */
static double gap_before(const struct interval_list *list, size_t place)
{
    return width_between(&list->at[place - 1].upper, &list->at[place].lower);
}

/* Of the gaps that are as wide as the narrowest one that stays, only some stay. */
void close_gaps(struct interval_list *list, size_t most)
{
    size_t gaps = list->count - 1, left = 1, spare = most - 1;
    double *widths, narrowest;
    if (list->count <= most)
        return;
    widths = palloc_extended(gaps * sizeof *widths, MCXT_ALLOC_HUGE);
    for (size_t place = 0; place < gaps; place++)
        widths[place] = gap_before(list, place + 1);
    qsort(widths, gaps, sizeof *widths, order_of_widths);
    narrowest = widths[most - 2];
    for (size_t place = 0; place < gaps && widths[place] > narrowest; place++)
        spare--;
    pfree(widths);
    for (size_t place = 1; place < list->count; place++)
    {
        double gap = width_between(&list->at[left - 1].upper, &list->at[place].lower);
        if (gap > narrowest || (gap == narrowest && spare > 0))
        {
            spare -= gap == narrowest;
            list->at[left++] = list->at[place];
        }
        else
            list->at[left - 1].upper = list->at[place].upper;
    }
    list->count = left;
}
