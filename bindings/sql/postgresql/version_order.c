/* SPDX-License-Identifier: Apache-2.0 */
/* The order of npm_version: that of SemVer, in which builds count for nothing. What is sorted, hashed and compared with bytes. */
#include "version.h"

#include "common/hashfn.h"
#include "port/pg_bswap.h"
#include "utils/sortsupport.h"

/* The order of two arguments, of which the second is a version, or bytes such as an end of an interval. */
static int order_of_arguments(PG_FUNCTION_ARGS)
{
    struct varlena *one = PG_GETARG_VERSION(0), *other = PG_GETARG_VERSION(1);
    struct version left = version_of(one), right = version_of(other);
    int order = order_of_versions(&left, &right);
    PG_FREE_IF_COPY(one, 0);
    PG_FREE_IF_COPY(other, 1);
    return order;
}

static int order_with_bytes(PG_FUNCTION_ARGS)
{
    struct varlena *one = PG_GETARG_VERSION(0);
    bytea *other = PG_GETARG_BYTEA_PP(1);
    struct version version = version_of(one);
    int order = order_of_bytes(version.key, version.key_length, VARDATA_ANY(other), VARSIZE_ANY_EXHDR(other));
    PG_FREE_IF_COPY(one, 0);
    PG_FREE_IF_COPY(other, 1);
    return order;
}

#define COMPARISONS(suffix, order_of)                                                                        \
    PG_FUNCTION_INFO_V1(npm_version_lt##suffix);                                                             \
    PG_FUNCTION_INFO_V1(npm_version_le##suffix);                                                             \
    PG_FUNCTION_INFO_V1(npm_version_eq##suffix);                                                             \
    PG_FUNCTION_INFO_V1(npm_version_ge##suffix);                                                             \
    PG_FUNCTION_INFO_V1(npm_version_gt##suffix);                                                             \
    PG_FUNCTION_INFO_V1(npm_version_cmp##suffix);                                                            \
    Datum npm_version_lt##suffix(PG_FUNCTION_ARGS) { PG_RETURN_BOOL(order_of(fcinfo) < 0); }                 \
    Datum npm_version_le##suffix(PG_FUNCTION_ARGS) { PG_RETURN_BOOL(order_of(fcinfo) <= 0); }                \
    Datum npm_version_eq##suffix(PG_FUNCTION_ARGS) { PG_RETURN_BOOL(order_of(fcinfo) == 0); }                \
    Datum npm_version_ge##suffix(PG_FUNCTION_ARGS) { PG_RETURN_BOOL(order_of(fcinfo) >= 0); }                \
    Datum npm_version_gt##suffix(PG_FUNCTION_ARGS) { PG_RETURN_BOOL(order_of(fcinfo) > 0); }                 \
    Datum npm_version_cmp##suffix(PG_FUNCTION_ARGS) { PG_RETURN_INT32(order_of(fcinfo)); }

COMPARISONS(, order_of_arguments)
COMPARISONS(_bytes, order_with_bytes)

PG_FUNCTION_INFO_V1(npm_version_ne);
Datum npm_version_ne(PG_FUNCTION_ARGS)
{
    PG_RETURN_BOOL(order_of_arguments(fcinfo) != 0);
}

/* ---- hashes: equal versions have one key ---- */

PG_FUNCTION_INFO_V1(npm_version_hash);
Datum npm_version_hash(PG_FUNCTION_ARGS)
{
    struct varlena *value = PG_GETARG_VERSION(0);
    struct version version = version_of(value);
    Datum hash = hash_any(version.key, (int)version.key_length);
    PG_FREE_IF_COPY(value, 0);
    return hash;
}

PG_FUNCTION_INFO_V1(npm_version_hash_extended);
Datum npm_version_hash_extended(PG_FUNCTION_ARGS)
{
    struct varlena *value = PG_GETARG_VERSION(0);
    struct version version = version_of(value);
    Datum hash = hash_any_extended(version.key, (int)version.key_length, (uint64)PG_GETARG_INT64(1));
    PG_FREE_IF_COPY(value, 0);
    return hash;
}

/* ---- sorting: by the first eight bytes of the keys, and where these are the same by the whole keys ---- */

static int order_of_data(Datum one, Datum other, SortSupport support)
{
    struct varlena *left = PG_DETOAST_DATUM_PACKED(one), *right = PG_DETOAST_DATUM_PACKED(other);
    struct version first = version_of(left), second = version_of(right);
    int order = order_of_versions(&first, &second);
    (void)support;
    if ((Pointer)left != DatumGetPointer(one))
        pfree(left);
    if ((Pointer)right != DatumGetPointer(other))
        pfree(right);
    return order;
}

static Datum shortened(Datum value, SortSupport support)
{
    struct varlena *read = PG_DETOAST_DATUM_PACKED(value);
    struct version version = version_of(read);
    Datum first = 0;
    (void)support;
    memcpy(&first, version.key, Min(version.key_length, sizeof first));
    if ((Pointer)read != DatumGetPointer(value))
        pfree(read);
    return DatumBigEndianToNative(first);
}

static bool is_given_up(int count, SortSupport support)
{
    (void)count;
    (void)support;
    return false;
}

PG_FUNCTION_INFO_V1(npm_version_sortsupport);
Datum npm_version_sortsupport(PG_FUNCTION_ARGS)
{
    SortSupport support = (SortSupport)PG_GETARG_POINTER(0);
    support->comparator = order_of_data;
    if (support->abbreviate)
    {
        support->comparator = ssup_datum_unsigned_cmp;
        support->abbrev_converter = shortened;
        support->abbrev_abort = is_given_up;
        support->abbrev_full_comparator = order_of_data;
    }
    PG_RETURN_VOID();
}
