/* SPDX-License-Identifier: Apache-2.0 */
/* semver_key, semver_is_prerelease, semver_satisfies and semver_intervals, over texts. */
#include "extension.h"

#include "funcapi.h"
#include "miscadmin.h"
#include "utils/builtins.h"
#include "utils/memutils.h"

PG_FUNCTION_INFO_V1(denimscree_key);
PG_FUNCTION_INFO_V1(denimscree_is_prerelease);
PG_FUNCTION_INFO_V1(denimscree_satisfies);
PG_FUNCTION_INFO_V1(denimscree_intervals);

Datum denimscree_key(PG_FUNCTION_ARGS)
{
    struct text version = text_of(PG_GETARG_TEXT_PP(0));
    struct failure failure;
    struct key key;
    bytea *value;
    if (!key_of_text(version, &key, &failure))
        fail(&failure);
    /* A key of up to 512 bytes has no memory of its own, and each key of a text is shorter. */
    if (key.bytes != key.room)
    {
        free_key(&key);
        elog(ERROR, "a key of %zu bytes", key.length);
    }
    value = bytes_of(&key);
    PG_RETURN_BYTEA_P(value);
}

Datum denimscree_is_prerelease(PG_FUNCTION_ARGS)
{
    struct text version = text_of(PG_GETARG_TEXT_PP(0));
    struct failure failure;
    bool answer = false;
    if (!is_text_of_prerelease(version, &answer, &failure))
        fail(&failure);
    PG_RETURN_BOOL(answer);
}

/* ---- semver_satisfies ---- */

/* The range of the last call of one expression, with its text. It lives as long as the expression. */
struct kept {
    MemoryContextCallback callback;
    node_semver_range range;
    char *bytes;
    size_t length;
};

static void let_range_go(void *kept)
{
    node_semver_range *range = &((struct kept *)kept)->range;
    node_semver_range_free(*range);
    *range = (node_semver_range)NODE_SEMVER_EMPTY;
}

static struct kept *kept_of(FmgrInfo *function)
{
    struct kept *kept = function->fn_extra;
    if (kept == NULL)
    {
        kept = MemoryContextAllocZero(function->fn_mcxt, sizeof *kept);
        kept->callback.func = let_range_go;
        kept->callback.arg = kept;
        MemoryContextRegisterResetCallback(function->fn_mcxt, &kept->callback);
        function->fn_extra = kept;
    }
    return kept;
}

/* Keeps the range of a text in the place of the one before. */
static void keep_range(struct kept *kept, MemoryContext context, struct text range)
{
    struct failure failure;
    check_length(range);
    let_range_go(kept);
    kept->length = 0;
    if (kept->bytes != NULL)
        pfree(kept->bytes);
    kept->bytes = NULL;
    kept->bytes = MemoryContextAlloc(context, range.length + 1);
    memcpy(kept->bytes, range.bytes, range.length);
    kept->length = range.length;
    if (!read_range(range, (size_t)max_range_bytes, &kept->range, &failure))
        fail(&failure);
}

Datum denimscree_satisfies(PG_FUNCTION_ARGS)
{
    struct text range = text_of(PG_GETARG_TEXT_PP(0)), version = text_of(PG_GETARG_TEXT_PP(1));
    struct kept *kept = kept_of(fcinfo->flinfo);
    struct failure failure;
    bool answer = false;
    /* A range that is kept was within the limit of its time, and the setting may be another by now. */
    if (kept->range.at == NULL || kept->length != range.length || range.length > (size_t)max_range_bytes
        || memcmp(kept->bytes, range.bytes, range.length) != 0)
        keep_range(kept, fcinfo->flinfo->fn_mcxt, range);
    if (!satisfies_text(&kept->range, version, &answer, &failure))
        fail(&failure);
    PG_RETURN_BOOL(answer);
}

/* ---- semver_intervals ---- */

/* Adds the row of an interval. A key that is too long for its room has memory of its own, and is freed on each way out. */
static void put_interval(ReturnSetInfo *result, const node_semver_intervals *intervals, size_t place)
{
    struct key lower = {0}, upper = {0};
    Datum values[3];
    bool nulls[3] = {false, false, false};
    if (!lower_key(intervals, place, &lower))
        fail_for_memory();
    if (!upper_key(intervals, place, &upper))
    {
        free_key(&lower);
        fail_for_memory();
    }
    PG_TRY();
    {
        values[0] = PointerGetDatum(bytes_of(&lower));
        values[1] = PointerGetDatum(bytes_of(&upper));
        values[2] = BoolGetDatum(node_semver_interval_is_of_prereleases(intervals, place));
        tuplestore_putvalues(result->setResult, result->setDesc, values, nulls);
    }
    PG_FINALLY();
    {
        free_key(&lower);
        free_key(&upper);
    }
    PG_END_TRY();
    pfree(DatumGetPointer(values[0]));
    pfree(DatumGetPointer(values[1]));
}

Datum denimscree_intervals(PG_FUNCTION_ARGS)
{
    struct text range = text_of(PG_GETARG_TEXT_PP(0));
    ReturnSetInfo *result = (ReturnSetInfo *)fcinfo->resultinfo;
    node_semver_intervals intervals = NODE_SEMVER_EMPTY;
    struct failure failure;
    InitMaterializedSRF(fcinfo, 0);
    if (!intervals_of_text(range, (size_t)max_range_bytes, &intervals, &failure))
        fail(&failure);
    PG_TRY();
    {
        size_t count = node_semver_intervals_count(&intervals);
        for (size_t place = 0; place < count; place++)
        {
            CHECK_FOR_INTERRUPTS();
            put_interval(result, &intervals, place);
        }
    }
    PG_FINALLY();
    {
        node_semver_intervals_free(intervals);
    }
    PG_END_TRY();
    return (Datum)0;
}
