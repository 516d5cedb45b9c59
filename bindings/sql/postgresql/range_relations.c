/* SPDX-License-Identifier: Apache-2.0 */
/* Two ranges: whether they overlap, whether one covers the other, and the order of their texts. */
#include "range.h"

#include "common/hashfn.h"

/* The most sets that two ranges have together whose cover is asked for: it tries each end of a set against all sets. */
#define MOST_SETS 3000

/* Reads the text of a range that was read before. */
static void read_again(const struct range *range, node_semver_range *read)
{
    struct failure failure;
    if (!read_range(utf8_of(range->text, range->text_length), SIZE_MAX, read, &failure))
        fail(&failure);
}

/* Reads both texts. If the second is not read, the first is freed. */
static void read_both(FunctionCallInfo fcinfo, node_semver_range *one, node_semver_range *other)
{
    struct range first = range_of(PG_GETARG_RANGE(0)), second = range_of(PG_GETARG_RANGE(1));
    read_again(&first, one);
    PG_TRY();
    {
        read_again(&second, other);
    }
    PG_CATCH();
    {
        node_semver_range_free(*one);
        PG_RE_THROW();
    }
    PG_END_TRY();
}

PG_FUNCTION_INFO_V1(npm_range_overlaps);
Datum npm_range_overlaps(PG_FUNCTION_ARGS)
{
    node_semver_range one = NODE_SEMVER_EMPTY, other = NODE_SEMVER_EMPTY;
    bool answer;
    read_both(fcinfo, &one, &other);
    answer = node_semver_range_allows_any(&one, &other);
    node_semver_range_free(one);
    node_semver_range_free(other);
    PG_RETURN_BOOL(answer);
}

/* Whether each version that satisfies the second range satisfies the first. */
static bool covers(FunctionCallInfo fcinfo)
{
    node_semver_range one = NODE_SEMVER_EMPTY, other = NODE_SEMVER_EMPTY;
    node_semver_version beyond = NODE_SEMVER_EMPTY;
    node_semver_status status = NODE_SEMVER_OK;
    size_t sets, others;
    read_both(fcinfo, &one, &other);
    sets = node_semver_range_set_count(&one);
    others = node_semver_range_set_count(&other);
    if (sets + others <= MOST_SETS)
        status = node_semver_least_beyond(&other, &one, &beyond);
    node_semver_range_free(one);
    node_semver_range_free(other);
    node_semver_version_free(beyond);
    if (status == NODE_SEMVER_OUT_OF_MEMORY)
        fail_for_memory();
    if (sets + others > MOST_SETS)
        ereport(ERROR, (errcode(ERRCODE_PROGRAM_LIMIT_EXCEEDED),
                        errmsg("the ranges have %zu and %zu sets, and more than %d together", sets, others, MOST_SETS)));
    return status == NODE_SEMVER_NONE;
}

PG_FUNCTION_INFO_V1(npm_range_covers);
Datum npm_range_covers(PG_FUNCTION_ARGS)
{
    PG_RETURN_BOOL(covers(fcinfo));
}

/* The same with the arguments changed. */
PG_FUNCTION_INFO_V1(npm_range_is_covered);
Datum npm_range_is_covered(PG_FUNCTION_ARGS)
{
    NullableDatum first = fcinfo->args[0];
    fcinfo->args[0] = fcinfo->args[1];
    fcinfo->args[1] = first;
    PG_RETURN_BOOL(covers(fcinfo));
}

/* ---- the order of the texts, byte by byte: for `=`, GROUP BY and DISTINCT ---- */

static int order_of_texts(FunctionCallInfo fcinfo)
{
    struct varlena *one = PG_GETARG_RANGE(0), *other = PG_GETARG_RANGE(1);
    struct range left = range_of(one), right = range_of(other);
    int order = order_of_bytes(left.text, left.text_length, right.text, right.text_length);
    PG_FREE_IF_COPY(one, 0);
    PG_FREE_IF_COPY(other, 1);
    return order;
}

#define COMPARISON(name, type, condition) \
    PG_FUNCTION_INFO_V1(npm_range_##name); \
    Datum npm_range_##name(PG_FUNCTION_ARGS) { type(order_of_texts(fcinfo) condition); }

COMPARISON(lt, PG_RETURN_BOOL, < 0)
COMPARISON(le, PG_RETURN_BOOL, <= 0)
COMPARISON(eq, PG_RETURN_BOOL, == 0)
COMPARISON(ne, PG_RETURN_BOOL, != 0)
COMPARISON(ge, PG_RETURN_BOOL, >= 0)
COMPARISON(gt, PG_RETURN_BOOL, > 0)
COMPARISON(cmp, PG_RETURN_INT32, + 0)

PG_FUNCTION_INFO_V1(npm_range_hash);
Datum npm_range_hash(PG_FUNCTION_ARGS)
{
    struct varlena *value = PG_GETARG_RANGE(0);
    struct range range = range_of(value);
    Datum hash = hash_any((const unsigned char *)range.text, (int)range.text_length);
    PG_FREE_IF_COPY(value, 0);
    return hash;
}

PG_FUNCTION_INFO_V1(npm_range_hash_extended);
Datum npm_range_hash_extended(PG_FUNCTION_ARGS)
{
    struct varlena *value = PG_GETARG_RANGE(0);
    struct range range = range_of(value);
    Datum hash = hash_any_extended((const unsigned char *)range.text, (int)range.text_length, (uint64)PG_GETARG_INT64(1));
    PG_FREE_IF_COPY(value, 0);
    return hash;
}
