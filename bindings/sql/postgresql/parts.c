/* SPDX-License-Identifier: Apache-2.0 */
/* What versions consist of, whether a text is one, and which one a text holds. */
#include "version.h"

#include "utils/builtins.h"

static struct parts parts_of_argument(FunctionCallInfo fcinfo)
{
    struct failure failure;
    struct parts parts;
    if (!parts_of_text(text_of(PG_GETARG_TEXT_PP(0)), &parts, &failure))
        fail(&failure);
    return parts;
}

static struct parts parts_of_typed(FunctionCallInfo fcinfo)
{
    struct version version = version_of(PG_GETARG_VERSION(0));
    if (is_end(&version))
        ereport(ERROR, (errcode(ERRCODE_INVALID_PARAMETER_VALUE), errmsg("an end of an interval is no version")));
    return parts_of_version((struct text){version.text, version.text_length});
}

/* NULL for a release. */
static Datum prerelease_of(FunctionCallInfo fcinfo, struct parts parts)
{
    if (parts.prerelease.length == 0)
        PG_RETURN_NULL();
    PG_RETURN_TEXT_P(cstring_to_text_with_len(parts.prerelease.bytes, (int)parts.prerelease.length));
}

#define PARTS(prefix, parts)                                                                              \
    PG_FUNCTION_INFO_V1(prefix##_major);                                                                  \
    PG_FUNCTION_INFO_V1(prefix##_minor);                                                                  \
    PG_FUNCTION_INFO_V1(prefix##_patch);                                                                  \
    PG_FUNCTION_INFO_V1(prefix##_prerelease);                                                             \
    Datum prefix##_major(PG_FUNCTION_ARGS) { PG_RETURN_INT64((int64)parts(fcinfo).numbers[0]); }          \
    Datum prefix##_minor(PG_FUNCTION_ARGS) { PG_RETURN_INT64((int64)parts(fcinfo).numbers[1]); }          \
    Datum prefix##_patch(PG_FUNCTION_ARGS) { PG_RETURN_INT64((int64)parts(fcinfo).numbers[2]); }          \
    Datum prefix##_prerelease(PG_FUNCTION_ARGS) { return prerelease_of(fcinfo, parts(fcinfo)); }

PARTS(denimscree, parts_of_argument)
PARTS(npm_version, parts_of_typed)

PG_FUNCTION_INFO_V1(denimscree_is_valid);
Datum denimscree_is_valid(PG_FUNCTION_ARGS)
{
    struct failure failure;
    bool answer = false;
    if (!is_text_of_version(text_of(PG_GETARG_TEXT_PP(0)), &answer, &failure))
        fail_for_memory();
    PG_RETURN_BOOL(answer);
}

/* NULL where no version is found. */
PG_FUNCTION_INFO_V1(denimscree_coerce);
Datum denimscree_coerce(PG_FUNCTION_ARGS)
{
    struct failure failure;
    char room[MAX_COERCED];
    size_t length;
    if (!coerced_text(text_of(PG_GETARG_TEXT_PP(0)), room, &length, &failure))
        fail(&failure);
    if (length == 0)
        PG_RETURN_NULL();
    PG_RETURN_POINTER(value_of((struct text){room, length}));
}
