/* SPDX-License-Identifier: Apache-2.0 */
/* The type npm_range: its text and its bytes, and which versions satisfy it. */
#include "range.h"

#include "libpq/pqformat.h"
#include "miscadmin.h"
#include "utils/builtins.h"

PG_FUNCTION_INFO_V1(npm_range_in);
PG_FUNCTION_INFO_V1(npm_range_out);
PG_FUNCTION_INFO_V1(npm_range_recv);
PG_FUNCTION_INFO_V1(npm_range_send);
PG_FUNCTION_INFO_V1(npm_version_in_range);
PG_FUNCTION_INFO_V1(npm_range_has_version);
PG_FUNCTION_INFO_V1(npm_range_lower_key);
PG_FUNCTION_INFO_V1(npm_range_upper_key);
PG_FUNCTION_INFO_V1(npm_range_lower_end);
PG_FUNCTION_INFO_V1(npm_range_upper_end);

/* ---- reading a value: its bytes may stand at any address ---- */

static size_t number_at(const char *bytes, size_t place)
{
    uint32 number;
    memcpy(&number, bytes + place * sizeof number, sizeof number);
    return number;
}

struct range range_of(const struct varlena *value)
{
    const char *bytes = VARDATA_ANY(value);
    struct range range = {NULL, number_at(bytes, 0), number_at(bytes, 1), number_at(bytes, 2), bytes + 3 * sizeof(uint32), NULL};
    range.text = range.stops + 2 * (range.releases + range.prereleases) * sizeof(uint32);
    range.keys = (const unsigned char *)range.text + range.text_length;
    return range;
}

/* The end at a place of all ends. */
static struct end end_at(const struct range *range, size_t place)
{
    size_t start = place == 0 ? 0 : number_at(range->stops, place - 1);
    return (struct end){range->keys + start, number_at(range->stops, place) - start};
}

struct end lower_end(const struct range *range, size_t place)
{
    return end_at(range, 2 * place);
}

struct end upper_end(const struct range *range, size_t place)
{
    return end_at(range, 2 * place + 1);
}

/* ---- making a value ---- */

/* Appends the keys of an interval and where they stop. The keys are freed on each way out. */
static void add_interval(StringInfo stops, StringInfo keys, const node_semver_intervals *intervals, size_t place)
{
    struct key ends[2] = {{0}, {0}};
    if (!lower_key(intervals, place, &ends[0]))
        fail_for_memory();
    if (!upper_key(intervals, place, &ends[1]))
    {
        free_key(&ends[0]);
        fail_for_memory();
    }
    PG_TRY();
    {
        for (int i = 0; i < 2; i++)
        {
            uint32 stop;
            appendBinaryStringInfo(keys, (const char *)ends[i].bytes, (int)ends[i].length);
            stop = (uint32)keys->len;
            appendBinaryStringInfo(stops, (const char *)&stop, sizeof stop);
        }
    }
    PG_FINALLY();
    {
        free_key(&ends[0]);
        free_key(&ends[1]);
    }
    PG_END_TRY();
}

static uint32 count_releases(const node_semver_intervals *intervals)
{
    size_t place = 0, count = node_semver_intervals_count(intervals);
    while (place < count && !node_semver_interval_is_of_prereleases(intervals, place))
        place++;
    return (uint32)place;
}

/* Appends all intervals. They are freed on each way out. */
static void add_intervals(StringInfo stops, StringInfo keys, node_semver_intervals intervals)
{
    PG_TRY();
    {
        size_t count = node_semver_intervals_count(&intervals);
        for (size_t place = 0; place < count; place++)
        {
            CHECK_FOR_INTERRUPTS();
            add_interval(stops, keys, &intervals, place);
        }
    }
    PG_FINALLY();
    {
        node_semver_intervals_free(intervals);
    }
    PG_END_TRY();
}

struct varlena *new_range(const char *bytes, size_t length, bool is_tried)
{
    struct text text = utf8_of(bytes, length);
    node_semver_intervals intervals = NODE_SEMVER_EMPTY;
    struct failure failure;
    StringInfoData stops, keys, value;
    uint32 head[3];
    initStringInfo(&stops);
    initStringInfo(&keys);
    if (!intervals_of_text(text, (size_t)max_range_bytes, &intervals, &failure))
    {
        if (is_tried && failure.status != NODE_SEMVER_OUT_OF_MEMORY)
            return NULL;
        fail(&failure);
    }
    head[0] = (uint32)length;
    head[1] = count_releases(&intervals);
    add_intervals(&stops, &keys, intervals);
    head[2] = (uint32)stops.len / (2 * sizeof(uint32)) - head[1];
    initStringInfo(&value);
    appendStringInfoSpaces(&value, VARHDRSZ);
    appendBinaryStringInfo(&value, (const char *)head, sizeof head);
    appendBinaryStringInfo(&value, stops.data, stops.len);
    appendBinaryStringInfo(&value, bytes, (int)length);
    appendBinaryStringInfo(&value, keys.data, keys.len);
    SET_VARSIZE(value.data, value.len);
    return (struct varlena *)value.data;
}

/* ---- input and output ---- */

Datum npm_range_in(PG_FUNCTION_ARGS)
{
    const char *text = PG_GETARG_CSTRING(0);
    PG_RETURN_POINTER(new_range(text, strlen(text), false));
}

Datum npm_range_out(PG_FUNCTION_ARGS)
{
    struct range range = range_of(PG_GETARG_RANGE(0));
    PG_RETURN_CSTRING(pnstrdup(range.text, range.text_length));
}

/* As bytes a range is its text. */
Datum npm_range_recv(PG_FUNCTION_ARGS)
{
    StringInfo message = (StringInfo)PG_GETARG_POINTER(0);
    int length;
    char *text = pq_getmsgtext(message, message->len - message->cursor, &length);
    PG_RETURN_POINTER(new_range(text, (size_t)length, false));
}

Datum npm_range_send(PG_FUNCTION_ARGS)
{
    struct range range = range_of(PG_GETARG_RANGE(0));
    StringInfoData message;
    pq_begintypsend(&message);
    pq_sendtext(&message, range.text, (int)range.text_length);
    PG_RETURN_BYTEA_P(pq_endtypsend(&message));
}

/* ---- which versions satisfy it ---- */

/* How many intervals from a place on begin at or below the version. */
static size_t begun(const struct range *range, size_t place, size_t count, const struct version *version)
{
    size_t low = 0, high = count;
    while (low < high)
    {
        size_t middle = low + (high - low) / 2;
        struct end lower = lower_end(range, place + middle);
        if (order_of_bytes(lower.bytes, lower.length, version->key, version->key_length) <= 0)
            low = middle + 1;
        else
            high = middle;
    }
    return low;
}

bool has_version(const struct range *range, const struct version *version)
{
    size_t place = version->is_prerelease ? range->releases : 0;
    size_t count = begun(range, place, version->is_prerelease ? range->prereleases : range->releases, version);
    struct end upper;
    if (count == 0)
        return false;
    upper = upper_end(range, place + count - 1);
    return order_of_bytes(version->key, version->key_length, upper.bytes, upper.length) < 0;
}

Datum npm_version_in_range(PG_FUNCTION_ARGS)
{
    struct version version = version_of(PG_GETARG_VERSION(0));
    struct range range = range_of(PG_GETARG_RANGE(1));
    PG_RETURN_BOOL(has_version(&range, &version));
}

Datum npm_range_has_version(PG_FUNCTION_ARGS)
{
    struct range range = range_of(PG_GETARG_RANGE(0));
    struct version version = version_of(PG_GETARG_VERSION(1));
    PG_RETURN_BOOL(has_version(&range, &version));
}

/* ---- the hull, for an index ---- */

bytea *bytea_of(struct end end)
{
    bytea *value = palloc(VARHDRSZ + end.length);
    SET_VARSIZE(value, VARHDRSZ + end.length);
    if (end.length > 0)
        memcpy(VARDATA(value), end.bytes, end.length);
    return value;
}

/* The first intervals of each kind have the least ends, and the last ones the greatest. */
struct end hull_end(const struct range *range, bool is_upper)
{
    struct end best = {NULL, 0};
    for (int kind = 0; kind < 2; kind++)
    {
        size_t first = kind == 0 ? 0 : range->releases, count = kind == 0 ? range->releases : range->prereleases;
        struct end end;
        int order;
        if (count == 0)
            continue;
        end = is_upper ? upper_end(range, first + count - 1) : lower_end(range, first);
        order = best.bytes == NULL ? 0 : order_of_bytes(end.bytes, end.length, best.bytes, best.length);
        if (best.bytes == NULL || (is_upper ? order > 0 : order < 0))
            best = end;
    }
    return best;
}

static struct end end_of_argument(FunctionCallInfo fcinfo, bool is_upper)
{
    struct range range = range_of(PG_GETARG_RANGE(0));
    return hull_end(&range, is_upper);
}

Datum npm_range_lower_key(PG_FUNCTION_ARGS)
{
    PG_RETURN_BYTEA_P(bytea_of(end_of_argument(fcinfo, false)));
}

Datum npm_range_upper_key(PG_FUNCTION_ARGS)
{
    PG_RETURN_BYTEA_P(bytea_of(end_of_argument(fcinfo, true)));
}

/* The same as values that versions are compared with. */
Datum npm_range_lower_end(PG_FUNCTION_ARGS)
{
    struct end end = end_of_argument(fcinfo, false);
    PG_RETURN_POINTER(value_of_end(end.bytes, end.length));
}

Datum npm_range_upper_end(PG_FUNCTION_ARGS)
{
    struct end end = end_of_argument(fcinfo, true);
    PG_RETURN_POINTER(value_of_end(end.bytes, end.length));
}
