/* SPDX-License-Identifier: Apache-2.0 */
/*
 * What an index over ranges has for a range, and for a page of ranges: a few intervals of keys of each kind, which together have
 * each key that a range below has. It is a bytea:
 *
 *     1 if they may have more keys than the range, else 0; how many are of releases; how many are of prereleases
 *     each interval: the length of its lower end and its bytes, and the same of its upper end
 *
 * Those of one kind ascend and do not touch. An end has at most LONGEST_SPAN_END bytes: a longer one is moved outwards.
 */
#ifndef DENIMSCREE_RANGE_SPANS_H
#define DENIMSCREE_RANGE_SPANS_H

#include "intervals.h"

enum { RELEASES, PRERELEASES, KINDS };
enum { MOST_SPANS = 6, LONGEST_SPAN_END = 24 };

/* The intervals of both kinds. Their ends lie in what they were read of. */
struct spans {
    struct interval_list kinds[KINDS];
    bool has_more; /* than the range */
};

/* Reads what an index has. */
struct spans spans_of(const bytea *value);

/* Adds the intervals of some spans to others, which are settled before they are used. */
void add_spans(struct spans *spans, const struct spans *added);

/* Joins them, and makes them few. */
void settle_spans(struct spans *spans);

/* What the index keeps. */
bytea *bytes_of_spans(const struct spans *spans);

/* The spans of a range. */
struct spans spans_of_range(const struct range *range);

/* Whether what an index has may have more keys than the range; and whether it has that of a version. Nothing is allocated. */
bool have_more(const bytea *spans);
bool have_version(const bytea *spans, const struct version *version);

/* Their order, for pages with spans that are alike: by the first interval, then the next. */
int order_of_spans(const struct spans *one, const struct spans *other);

/* How much they have. */
double width_of_spans(const struct spans *spans);

#endif
