/* SPDX-License-Identifier: Apache-2.0 */
/* The calls of the rows that write keys. */
#include "answers.h"

/* Appends bytes as hexadecimal text. */
static void tell_bytes(struct answer *answer, const unsigned char *bytes, size_t length) {
    size_t end = strlen(answer->text);
    for (size_t i = 0; i < length && end + 2 < sizeof answer->text; i++, end += 2) {
        snprintf(answer->text + end, sizeof answer->text - end, "%02x", bytes[i]);
    }
}

/* Appends what a call of this length has written: just these bytes, of a room that had other ones; or nothing where the room
 * is one byte too short. */
#define TELL_WRITTEN(answer, call)                                                                   \
    do {                                                                                             \
        unsigned char room_[600], less_[600];                                                        \
        memset(room_, 0xa5, sizeof room_);                                                           \
        memset(less_, 0xa5, sizeof less_);                                                           \
        size_t length_ = call(room_, sizeof room_), again_ = length_ == 0 ? 0 : call(less_, length_ - 1); \
        bool is_short_ = again_ != length_ && again_ != 0;                                           \
        for (size_t i_ = 0; i_ < sizeof room_; i_++) {                                               \
            is_short_ = is_short_ || less_[i_] != 0xa5 || (i_ >= length_ && room_[i_] != 0xa5);      \
        }                                                                                            \
        if (is_short_ || length_ > sizeof room_) {                                                   \
            tell(answer, "another length, or a byte that is not of the key");                        \
        } else {                                                                                     \
            tell_bytes(answer, room_, length_);                                                      \
        }                                                                                            \
    } while (0)

static void run_key(const node_semver_version *version, struct answer *answer) {
#define WRITE_KEY(room, size) node_semver_version_key(version, room, size)
    TELL_WRITTEN(answer, WRITE_KEY);
    if (answer->text[0] == '\0') {
        tell(answer, "out of memory");
    }
}

/* Writes the version that is read back from the key. A key without its last byte is none. */
static void run_key_back(const node_semver_version *version, struct answer *answer) {
    unsigned char key[600];
    node_semver_version made = NODE_SEMVER_EMPTY, none = NODE_SEMVER_EMPTY;
    size_t length = node_semver_version_key(version, key, sizeof key);
    node_semver_status status = length == 0 ? NODE_SEMVER_OUT_OF_MEMORY : node_semver_version_of_key(key, length, &made);
    if (status != NODE_SEMVER_OK) {
        tell_status(answer, status, NULL);
        return;
    }
    node_semver_status cut = node_semver_version_of_key(key, length - 1, &none);
    if (cut == NODE_SEMVER_NONE) {
        tell_version(answer, &made);
    } else {
        tell(answer, cut == NODE_SEMVER_OUT_OF_MEMORY ? "out of memory" : "a key without its last byte");
    }
    node_semver_version_free(made);
    node_semver_version_free(none);
}

/* Writes each interval: its ends, and `p` if it is of prereleases. Past the last one nothing is written. */
static void run_intervals(node_semver_status (*make)(const node_semver_range *, node_semver_intervals *),
                          const node_semver_range *range, struct answer *answer) {
    node_semver_intervals made = NODE_SEMVER_EMPTY;
    node_semver_status status = make(range, &made);
    if (status != NODE_SEMVER_OK) {
        tell_status(answer, status, NULL);
        return;
    }
    size_t count = node_semver_intervals_count(&made);
    for (size_t place = 0; place < count; place++) {
#define WRITE_LOWER(room, size) node_semver_interval_lower(&made, place, room, size)
#define WRITE_UPPER(room, size) node_semver_interval_upper(&made, place, room, size)
        strcat(answer->text, place == 0 ? "" : ", ");
        TELL_WRITTEN(answer, WRITE_LOWER);
        strcat(answer->text, "-");
        TELL_WRITTEN(answer, WRITE_UPPER);
        strcat(answer->text, node_semver_interval_is_of_prereleases(&made, place) ? " p" : "");
    }
    unsigned char room[1] = {7};
    for (size_t i = 0; i < 2; i++) {
        size_t past = i == 0 ? count : SIZE_MAX;
        if (node_semver_interval_lower(&made, past, room, 1) != 0 || node_semver_interval_upper(&made, past, room, 1) != 0
            || node_semver_interval_is_of_prereleases(&made, past) || room[0] != 7) {
            tell(answer, "an interval past the last");
        }
    }
    node_semver_intervals_free(made);
}
