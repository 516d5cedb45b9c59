/* SPDX-License-Identifier: Apache-2.0 */
/* The collation `semver`: versions in the order of SemVer. */
#include "extension.h"

#include <string.h>

SQLITE_EXTENSION_INIT3

static int order_of_bytes(const void *one, size_t length, const void *other, size_t other_length) {
    size_t shared = length < other_length ? length : other_length;
    int order = shared == 0 ? 0 : memcmp(one, other, shared);
    return order != 0 ? order : (length > other_length) - (length < other_length);
}

/* Makes the key of a text: 1, 0 if it is no version, or -1 if memory ran out. */
static int try_key(struct text text, struct key *key) {
    struct failure failure;
    if (key_of_text(text, key, &failure)) {
        return 1;
    }
    return failure.status == NODE_SEMVER_OUT_OF_MEMORY ? -1 : 0;
}

/* A collation has no way to fail. Where memory runs out, the statement is interrupted, and its order counts for nothing. */
static int compare(void *database, int length, const void *one, int other_length, const void *other) {
    struct text texts[2] = {{one, (size_t)length}, {other, (size_t)other_length}};
    struct key keys[2];
    int are[2], order;
    for (int i = 0; i < 2; i++) {
        if (texts[i].bytes == NULL) {
            texts[i].bytes = "";
        }
        are[i] = try_key(texts[i], &keys[i]);
    }
    if (are[0] < 0 || are[1] < 0) {
        sqlite3_interrupt(database);
    }
    if (are[0] == 1 && are[1] == 1) {
        order = order_of_bytes(keys[0].bytes, keys[0].length, keys[1].bytes, keys[1].length);
    } else if (are[0] == 1 || are[1] == 1) {
        order = are[0] == 1 ? 1 : -1;
    } else {
        order = order_of_bytes(texts[0].bytes, texts[0].length, texts[1].bytes, texts[1].length);
    }
    for (int i = 0; i < 2; i++) {
        if (are[i] == 1) {
            free_key(&keys[i]);
        }
    }
    return order;
}

int add_collation(sqlite3 *database) {
    return sqlite3_create_collation_v2(database, "semver", SQLITE_UTF8, database, compare, NULL);
}
