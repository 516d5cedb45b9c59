/* SPDX-License-Identifier: Apache-2.0 */
/*
 * An index over ranges that finds those that hold a version: a class of operators for GiST. What the index has lets through more than
 * some ranges hold, and then the server tests the row.
 */
#include "range_spans.h"

#include "access/gist.h"
#include "access/stratnum.h"
#include "utils/sortsupport.h"

#define HOLDS_STRATEGY 1

PG_FUNCTION_INFO_V1(npm_range_gist_compress);
PG_FUNCTION_INFO_V1(npm_range_gist_consistent);
PG_FUNCTION_INFO_V1(npm_range_gist_union);
PG_FUNCTION_INFO_V1(npm_range_gist_penalty);
PG_FUNCTION_INFO_V1(npm_range_gist_picksplit);
PG_FUNCTION_INFO_V1(npm_range_gist_same);
PG_FUNCTION_INFO_V1(npm_range_gist_sortsupport);

static struct spans spans_of_key(Datum key)
{
    return spans_of((bytea *)PG_DETOAST_DATUM_PACKED(key));
}

Datum npm_range_gist_compress(PG_FUNCTION_ARGS)
{
    GISTENTRY *entry = (GISTENTRY *)PG_GETARG_POINTER(0), *compressed;
    struct range range;
    struct spans spans;
    if (!entry->leafkey)
        PG_RETURN_POINTER(entry);
    range = range_of((struct varlena *)PG_DETOAST_DATUM_PACKED(entry->key));
    spans = spans_of_range(&range);
    compressed = palloc(sizeof *compressed);
    gistentryinit(*compressed, PointerGetDatum(bytes_of_spans(&spans)), entry->rel, entry->page, entry->offset, false);
    PG_RETURN_POINTER(compressed);
}

Datum npm_range_gist_consistent(PG_FUNCTION_ARGS)
{
    GISTENTRY *entry = (GISTENTRY *)PG_GETARG_POINTER(0);
    struct version version = version_of(PG_GETARG_VERSION(1));
    StrategyNumber strategy = (StrategyNumber)PG_GETARG_UINT16(2);
    bool *recheck = (bool *)PG_GETARG_POINTER(4);
    const bytea *spans = (bytea *)PG_DETOAST_DATUM_PACKED(entry->key);
    if (strategy != HOLDS_STRATEGY)
        elog(ERROR, "unknown strategy %d", strategy);
    *recheck = have_more(spans);
    PG_RETURN_BOOL(have_version(spans, &version));
}

/* The spans of all entries from one place to before another. */
static struct spans spans_of_entries(GistEntryVector *entries, const OffsetNumber *places, int first, int last)
{
    struct spans all = {{{NULL, 0, 0}, {NULL, 0, 0}}, true};
    for (int place = first; place < last; place++)
    {
        struct spans spans = spans_of_key(entries->vector[places == NULL ? place : places[place]].key);
        add_spans(&all, &spans);
    }
    settle_spans(&all);
    return all;
}

Datum npm_range_gist_union(PG_FUNCTION_ARGS)
{
    GistEntryVector *entries = (GistEntryVector *)PG_GETARG_POINTER(0);
    struct spans all = spans_of_entries(entries, NULL, 0, entries->n);
    PG_RETURN_BYTEA_P(bytes_of_spans(&all));
}

/* How much wider a page gets. */
Datum npm_range_gist_penalty(PG_FUNCTION_ARGS)
{
    struct spans page = spans_of_key(((GISTENTRY *)PG_GETARG_POINTER(0))->key);
    struct spans added = spans_of_key(((GISTENTRY *)PG_GETARG_POINTER(1))->key);
    float *penalty = (float *)PG_GETARG_POINTER(2);
    double before = width_of_spans(&page);
    add_spans(&page, &added);
    settle_spans(&page);
    *penalty = (float)(width_of_spans(&page) - before);
    PG_RETURN_POINTER(penalty);
}

/* ---- a page that is full: its entries in their order, in two halves ---- */

struct ordered {
    struct spans spans;
    OffsetNumber place;
};

static int order_of_entries(const void *one, const void *other)
{
    return order_of_spans(&((const struct ordered *)one)->spans, &((const struct ordered *)other)->spans);
}

/* The places of the entries, of which the first is 1, in the order of their spans. The server may add to the list. */
static OffsetNumber *ordered_places(GistEntryVector *entries, int count)
{
    struct ordered *ordered = palloc(count * sizeof *ordered);
    OffsetNumber *places = palloc((count + 1) * sizeof *places);
    for (int i = 0; i < count; i++)
    {
        ordered[i].place = (OffsetNumber)(FirstOffsetNumber + i);
        ordered[i].spans = spans_of_key(entries->vector[ordered[i].place].key);
    }
    qsort(ordered, count, sizeof *ordered, order_of_entries);
    for (int i = 0; i < count; i++)
        places[i] = ordered[i].place;
    return places;
}

Datum npm_range_gist_picksplit(PG_FUNCTION_ARGS)
{
    GistEntryVector *entries = (GistEntryVector *)PG_GETARG_POINTER(0);
    GIST_SPLITVEC *split = (GIST_SPLITVEC *)PG_GETARG_POINTER(1);
    int count = entries->n - FirstOffsetNumber, left = count / 2;
    OffsetNumber *places = ordered_places(entries, count), *right = palloc((count + 1) * sizeof *right);
    struct spans below = spans_of_entries(entries, places, 0, left), above = spans_of_entries(entries, places, left, count);
    split->spl_left = places;
    split->spl_nleft = left;
    split->spl_ldatum = PointerGetDatum(bytes_of_spans(&below));
    memcpy(right, places + left, (count - left) * sizeof *right);
    split->spl_right = right;
    split->spl_nright = count - left;
    split->spl_rdatum = PointerGetDatum(bytes_of_spans(&above));
    PG_RETURN_POINTER(split);
}

Datum npm_range_gist_same(PG_FUNCTION_ARGS)
{
    bytea *one = PG_GETARG_BYTEA_PP(0), *other = PG_GETARG_BYTEA_PP(1);
    bool *answer = (bool *)PG_GETARG_POINTER(2);
    *answer = order_of_bytes(VARDATA_ANY(one), VARSIZE_ANY_EXHDR(one), VARDATA_ANY(other), VARSIZE_ANY_EXHDR(other)) == 0;
    PG_RETURN_POINTER(answer);
}

/* ---- an index that is made of all rows: they are sorted first ---- */

static int order_of_keys(Datum one, Datum other, SortSupport support)
{
    struct spans left = spans_of_key(one), right = spans_of_key(other);
    int order = order_of_spans(&left, &right);
    (void)support;
    for (int kind = 0; kind < KINDS; kind++)
    {
        if (left.kinds[kind].at != NULL)
            pfree(left.kinds[kind].at);
        if (right.kinds[kind].at != NULL)
            pfree(right.kinds[kind].at);
    }
    return order;
}

Datum npm_range_gist_sortsupport(PG_FUNCTION_ARGS)
{
    ((SortSupport)PG_GETARG_POINTER(0))->comparator = order_of_keys;
    PG_RETURN_VOID();
}
