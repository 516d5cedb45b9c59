/* SPDX-License-Identifier: Apache-2.0 */
/* What max, min, max_satisfying and min_satisfying do with each version. Of equal ones the first stays. */
#include "range.h"

/* Whether the second of two versions takes the place of the first: it is above, or with `sign` -1 below. */
static bool is_better(const struct varlena *one, const struct varlena *other, int sign)
{
    struct version first = version_of(one), second = version_of(other);
    return sign * order_of_versions(&second, &first) > 0;
}

static Datum better(FunctionCallInfo fcinfo, int sign)
{
    struct varlena *one = PG_GETARG_VERSION(0), *other = PG_GETARG_VERSION(1);
    PG_RETURN_POINTER(is_better(one, other, sign) ? other : one);
}

PG_FUNCTION_INFO_V1(npm_version_larger);
Datum npm_version_larger(PG_FUNCTION_ARGS)
{
    return better(fcinfo, 1);
}

PG_FUNCTION_INFO_V1(npm_version_smaller);
Datum npm_version_smaller(PG_FUNCTION_ARGS)
{
    return better(fcinfo, -1);
}

/* The arguments are the best version up to now, which is NULL at first, and a version and a range. */
static Datum better_satisfying(FunctionCallInfo fcinfo, int sign)
{
    struct varlena *other;
    struct version version;
    struct range range;
    if (!PG_ARGISNULL(1) && !PG_ARGISNULL(2))
    {
        other = PG_GETARG_VERSION(1);
        version = version_of(other);
        range = range_of(PG_GETARG_RANGE(2));
        if (has_version(&range, &version) && (PG_ARGISNULL(0) || is_better(PG_GETARG_VERSION(0), other, sign)))
            PG_RETURN_POINTER(other);
    }
    if (PG_ARGISNULL(0))
        PG_RETURN_NULL();
    PG_RETURN_DATUM(PG_GETARG_DATUM(0));
}

PG_FUNCTION_INFO_V1(npm_version_larger_satisfying);
Datum npm_version_larger_satisfying(PG_FUNCTION_ARGS)
{
    return better_satisfying(fcinfo, 1);
}

PG_FUNCTION_INFO_V1(npm_version_smaller_satisfying);
Datum npm_version_smaller_satisfying(PG_FUNCTION_ARGS)
{
    return better_satisfying(fcinfo, -1);
}
