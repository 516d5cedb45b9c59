/* SPDX-License-Identifier: Apache-2.0 */
/* A few intervals of keys that have all keys of a range, or of many ranges. */
#include "range_spans.h"

/* ---- what an index keeps ---- */

static struct end read_end(const unsigned char **bytes)
{
    struct end end = {*bytes + 1, **bytes};
    *bytes += 1 + end.length;
    return end;
}

struct spans spans_of(const bytea *value)
{
    const unsigned char *bytes = (const unsigned char *)VARDATA_ANY(value), *next = bytes + 1 + KINDS;
    struct spans spans = {{{NULL, 0, 0}, {NULL, 0, 0}}, bytes[0] != 0};
    for (int kind = 0; kind < KINDS; kind++)
        for (int place = 0; place < bytes[1 + kind]; place++)
        {
            struct interval interval;
            interval.lower = read_end(&next);
            interval.upper = read_end(&next);
            add_interval_to(&spans.kinds[kind], interval);
        }
    return spans;
}

/* An end at most as long as an index keeps: a lower one is a beginning of it, and an upper one lies above all that begin so.
 * Each key begins with a byte below 255, so there is a byte to raise. */
static size_t write_end(unsigned char *room, const struct end *end, bool is_upper)
{
    size_t length = Min(end->length, LONGEST_SPAN_END);
    if (length > 0)
        memcpy(room + 1, end->bytes, length);
    if (is_upper && length < end->length)
    {
        while (length > 1 && room[length] == 255)
            length--;
        room[length]++;
    }
    room[0] = (unsigned char)length;
    return 1 + length;
}

static bool is_cut(const struct interval *interval)
{
    return interval->lower.length > LONGEST_SPAN_END || interval->upper.length > LONGEST_SPAN_END;
}

bytea *bytes_of_spans(const struct spans *spans)
{
    unsigned char *bytes, *next;
    bytea *value = palloc(VARHDRSZ + 1 + KINDS + KINDS * MOST_SPANS * 2 * (1 + LONGEST_SPAN_END));
    bytes = (unsigned char *)VARDATA(value);
    next = bytes + 1 + KINDS;
    bytes[0] = spans->has_more;
    for (int kind = 0; kind < KINDS; kind++)
    {
        bytes[1 + kind] = (unsigned char)spans->kinds[kind].count;
        for (size_t place = 0; place < spans->kinds[kind].count; place++)
        {
            const struct interval *interval = &spans->kinds[kind].at[place];
            bytes[0] |= is_cut(interval);
            next += write_end(next, &interval->lower, false);
            next += write_end(next, &interval->upper, true);
        }
    }
    SET_VARSIZE(value, VARHDRSZ + (next - bytes));
    return value;
}

/* ---- spans of ranges ---- */

void add_spans(struct spans *spans, const struct spans *added)
{
    spans->has_more = spans->has_more || added->has_more;
    for (int kind = 0; kind < KINDS; kind++)
        for (size_t place = 0; place < added->kinds[kind].count; place++)
            add_interval_to(&spans->kinds[kind], added->kinds[kind].at[place]);
}

void settle_spans(struct spans *spans)
{
    for (int kind = 0; kind < KINDS; kind++)
    {
        struct interval_list *list = &spans->kinds[kind];
        size_t before;
        join_intervals(list);
        before = list->count;
        close_gaps(list, MOST_SPANS);
        spans->has_more = spans->has_more || list->count < before;
    }
}

struct spans spans_of_range(const struct range *range)
{
    struct spans spans = {{{NULL, 0, 0}, {NULL, 0, 0}}, false};
    for (size_t place = 0; place < range->releases + range->prereleases; place++)
        add_interval_to(&spans.kinds[place < range->releases ? RELEASES : PRERELEASES],
                        (struct interval){lower_end(range, place), upper_end(range, place)});
    settle_spans(&spans);
    return spans;
}

/* ---- questions ---- */

bool have_more(const bytea *spans)
{
    return VARDATA_ANY(spans)[0] != 0;
}

bool have_version(const bytea *spans, const struct version *version)
{
    const unsigned char *bytes = (const unsigned char *)VARDATA_ANY(spans), *next = bytes + 1 + KINDS;
    struct end key = {version->key, version->key_length};
    for (int place = 0; place < bytes[1 + RELEASES] + bytes[1 + PRERELEASES]; place++)
    {
        struct end lower = read_end(&next), upper = read_end(&next);
        if ((place >= bytes[1 + RELEASES]) == version->is_prerelease && order_of_ends(&lower, &key) <= 0
            && order_of_ends(&key, &upper) < 0)
            return true;
    }
    return false;
}

static int order_of_lists(const struct interval_list *one, const struct interval_list *other)
{
    int order = 0;
    for (size_t place = 0; place < Min(one->count, other->count) && order == 0; place++)
    {
        order = order_of_ends(&one->at[place].lower, &other->at[place].lower);
        if (order == 0)
            order = order_of_ends(&one->at[place].upper, &other->at[place].upper);
    }
    return order != 0 ? order : (one->count > other->count) - (one->count < other->count);
}

int order_of_spans(const struct spans *one, const struct spans *other)
{
    int order = order_of_lists(&one->kinds[RELEASES], &other->kinds[RELEASES]);
    return order != 0 ? order : order_of_lists(&one->kinds[PRERELEASES], &other->kinds[PRERELEASES]);
}

double width_of_spans(const struct spans *spans)
{
    double width = 0;
    for (int kind = 0; kind < KINDS; kind++)
        for (size_t place = 0; place < spans->kinds[kind].count; place++)
            width += width_between(&spans->kinds[kind].at[place].lower, &spans->kinds[kind].at[place].upper);
    return width;
}
