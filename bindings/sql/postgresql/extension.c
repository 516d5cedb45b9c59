/* SPDX-License-Identifier: Apache-2.0 */
/* The setting, texts, errors and bytes. */
#include "planner.h"

#include "mb/pg_wchar.h"
#include "utils/guc.h"
#include "utils/memutils.h"

PG_MODULE_MAGIC;

int max_range_bytes = MAX_RANGE_BYTES;

void _PG_init(void);

void _PG_init(void)
{
    DefineCustomIntVariable("semver.max_range_bytes", "Sets how many bytes the text of a version range may have.",
                            "A long text takes memory that the server does not count, and is read without an interrupt.",
                            &max_range_bytes, MAX_RANGE_BYTES, 0, MaxAllocSize - 1, PGC_USERSET, GUC_UNIT_BYTE, NULL, NULL,
                            NULL);
    MarkGUCPrefixReserved("semver");
    watch_tables();
}

struct text utf8_of(const char *bytes, size_t length)
{
    char *converted = pg_server_to_any(bytes, (int)length, PG_UTF8);
    return (struct text){converted, converted == bytes ? length : strlen(converted)};
}

struct text text_of(const text *value)
{
    return utf8_of(VARDATA_ANY(value), VARSIZE_ANY_EXHDR(value));
}

void fail_for_memory(void)
{
    ereport(ERROR, (errcode(ERRCODE_OUT_OF_MEMORY), errmsg("out of memory")));
}

void fail(const struct failure *failure)
{
    char message[MESSAGE];
    int code = ERRCODE_INVALID_TEXT_REPRESENTATION;
    if (failure->status == NODE_SEMVER_OUT_OF_MEMORY)
        fail_for_memory();
    tell_failure(failure, message, sizeof message);
    if (is_too_long(failure))
        ereport(ERROR, (errcode(ERRCODE_PROGRAM_LIMIT_EXCEEDED), errmsg("%s", message),
                        errhint("The setting semver.max_range_bytes says how many.")));
    if (failure->status == NODE_SEMVER_NOT_UTF8)
        code = ERRCODE_CHARACTER_NOT_IN_REPERTOIRE;
    ereport(ERROR, (errcode(code), errmsg("%s", message)));
}

void check_length(struct text range)
{
    node_semver_range none = NODE_SEMVER_EMPTY;
    struct failure failure;
    if (range.length > (size_t)max_range_bytes && !read_range(range, (size_t)max_range_bytes, &none, &failure))
        fail(&failure);
}

bytea *bytes_of(const struct key *key)
{
    bytea *value = palloc(VARHDRSZ + key->length);
    SET_VARSIZE(value, VARHDRSZ + key->length);
    memcpy(VARDATA(value), key->bytes, key->length);
    return value;
}

int order_of_bytes(const void *one, size_t length, const void *other, size_t other_length)
{
    size_t shared = Min(length, other_length);
    int order = shared == 0 ? 0 : memcmp(one, other, shared);
    return order != 0 ? order : (length > other_length) - (length < other_length);
}
