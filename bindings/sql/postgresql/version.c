/* SPDX-License-Identifier: Apache-2.0 */
/* The type npm_version: its text and its bytes. */
#include "version.h"

#include "libpq/pqformat.h"
#include "utils/builtins.h"

PG_FUNCTION_INFO_V1(npm_version_in);
PG_FUNCTION_INFO_V1(npm_version_out);
PG_FUNCTION_INFO_V1(npm_version_recv);
PG_FUNCTION_INFO_V1(npm_version_send);
PG_FUNCTION_INFO_V1(npm_version_key);
PG_FUNCTION_INFO_V1(npm_version_is_prerelease);
PG_FUNCTION_INFO_V1(npm_version_end);

/* A value with this key and this text. */
static struct varlena *new_value(const void *key, size_t key_length, bool is_prerelease, struct text text)
{
    size_t size = VARHDRSZ + 2 + key_length + text.length;
    struct varlena *value = palloc(size);
    unsigned char *bytes = (unsigned char *)VARDATA(value);
    SET_VARSIZE(value, size);
    bytes[0] = (unsigned char)(key_length >> 7);
    bytes[1] = (unsigned char)(key_length << 1 | is_prerelease);
    if (key_length > 0)
        memcpy(bytes + 2, key, key_length);
    memcpy(bytes + 2 + key_length, text.bytes, text.length);
    return value;
}

struct varlena *value_of_end(const void *bytes, size_t length)
{
    return new_value(bytes, Min(length, LONGEST_END), false, (struct text){"", 0});
}

/* The value of a text. The text of a version is ASCII, which is the same in each encoding of a server. */
struct varlena *value_of(struct text text)
{
    struct failure failure;
    struct key key;
    bool is_prerelease = false;
    if (!key_and_kind_of_text(text, &key, &is_prerelease, &failure))
        fail(&failure);
    if (key.bytes != key.room)
    {
        free_key(&key);
        elog(ERROR, "a key of %zu bytes", key.length);
    }
    return new_value(key.bytes, key.length, is_prerelease, text);
}

/* The text of a value in memory of its own. */
static char *shown(const struct version *version)
{
    char *text;
    if (!is_end(version))
        return pnstrdup(version->text, version->text_length);
    text = palloc(2 * version->key_length + 3);
    strcpy(text, "\\x");
    for (size_t place = 0; place < version->key_length; place++)
        sprintf(text + 2 + 2 * place, "%02x", version->key[place]);
    return text;
}

Datum npm_version_in(PG_FUNCTION_ARGS)
{
    const char *text = PG_GETARG_CSTRING(0);
    PG_RETURN_POINTER(value_of(utf8_of(text, strlen(text))));
}

Datum npm_version_out(PG_FUNCTION_ARGS)
{
    struct version version = version_of(PG_GETARG_VERSION(0));
    PG_RETURN_CSTRING(shown(&version));
}

/* As bytes a version is its text. */
Datum npm_version_recv(PG_FUNCTION_ARGS)
{
    StringInfo message = (StringInfo)PG_GETARG_POINTER(0);
    int length;
    char *text = pq_getmsgtext(message, message->len - message->cursor, &length);
    PG_RETURN_POINTER(value_of(utf8_of(text, (size_t)length)));
}

Datum npm_version_send(PG_FUNCTION_ARGS)
{
    struct version version = version_of(PG_GETARG_VERSION(0));
    char *text = shown(&version);
    StringInfoData message;
    pq_begintypsend(&message);
    pq_sendtext(&message, text, (int)strlen(text));
    PG_RETURN_BYTEA_P(pq_endtypsend(&message));
}

Datum npm_version_key(PG_FUNCTION_ARGS)
{
    struct version version = version_of(PG_GETARG_VERSION(0));
    bytea *key = palloc(VARHDRSZ + version.key_length);
    SET_VARSIZE(key, VARHDRSZ + version.key_length);
    memcpy(VARDATA(key), version.key, version.key_length);
    PG_RETURN_BYTEA_P(key);
}

Datum npm_version_is_prerelease(PG_FUNCTION_ARGS)
{
    PG_RETURN_BOOL(version_of(PG_GETARG_VERSION(0)).is_prerelease);
}

/* Bytes as an end of an interval. */
Datum npm_version_end(PG_FUNCTION_ARGS)
{
    bytea *bytes = PG_GETARG_BYTEA_PP(0);
    PG_RETURN_POINTER(value_of_end(VARDATA_ANY(bytes), VARSIZE_ANY_EXHDR(bytes)));
}
