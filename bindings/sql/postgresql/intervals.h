/* SPDX-License-Identifier: Apache-2.0 */
/* Intervals of keys, whatever versions they are of: sorted, joined, and made fewer. */
#ifndef DENIMSCREE_INTERVALS_H
#define DENIMSCREE_INTERVALS_H

#include "range.h"

/* Its ends lie in the value of a range, or of an index. */
struct interval {
    struct end lower, upper;
};

/* Intervals that more are added to. */
struct interval_list {
    struct interval *at;
    size_t count, room;
};

void add_interval_to(struct interval_list *list, struct interval interval);

/* Sorts intervals, and joins those that overlap or touch. */
void join_intervals(struct interval_list *list);

/* Joins neighbours among intervals that are sorted and joined, until there are at most so many: those with the narrowest gaps. */
void close_gaps(struct interval_list *list, size_t most);

/* How far it is from one end to another, as the first bytes of keys tell. */
double width_between(const struct end *lower, const struct end *upper);

int order_of_ends(const struct end *one, const struct end *other);

#endif
