/* SPDX-License-Identifier: Apache-2.0 */
/*
 * Makes the calls that both extensions are made of, those of `src/texts.h`, and refuses each request for memory of each call in
 * turn. A call must say that memory is out, or give the right result, and what it was given must be back at the end.
 *
 * The last line is 'N passed, M failed'.
 */
#include "../../src/texts.h"
#include "requests.h"

#include <stdio.h>
#include <string.h>

/* Makes a call: 'y' or 'n' for its result, 'r' for a refused text, 'm' if memory is out, '?' for a wrong result. */
typedef char call(struct text range, struct text version);

static char told(bool is_made, bool answer, const struct failure *failure) {
    if (is_made) {
        return answer ? 'y' : 'n';
    }
    return failure->status == NODE_SEMVER_OUT_OF_MEMORY ? 'm' : 'r';
}

static char ask_key(struct text range, struct text version) {
    struct key key;
    struct failure failure;
    (void)range;
    bool is_made = key_of_text(version, &key, &failure), is_long = is_made && key.length > 3;
    if (is_made) {
        free_key(&key);
    }
    return told(is_made, is_long, &failure);
}

static char ask_prerelease(struct text range, struct text version) {
    struct failure failure;
    bool answer = false;
    (void)range;
    bool is_made = is_text_of_prerelease(version, &answer, &failure);
    return told(is_made, answer, &failure);
}

static char ask_satisfies(struct text range, struct text version) {
    node_semver_range read = NODE_SEMVER_EMPTY;
    struct failure failure;
    bool answer = false;
    bool is_made = read_range(range, MAX_RANGE_BYTES, &read, &failure) && satisfies_text(&read, version, &answer, &failure);
    node_semver_range_free(read);
    return told(is_made, answer, &failure);
}

static char ask_validity(struct text range, struct text version) {
    struct failure failure;
    bool answer = false;
    (void)range;
    bool is_made = is_text_of_version(version, &answer, &failure);
    return told(is_made, answer, &failure);
}

/* Whether the numbers and the prerelease are those of 1.2.3-rc.5. */
static char ask_parts(struct text range, struct text version) {
    struct failure failure;
    struct parts parts;
    (void)range;
    if (!parts_of_text(version, &parts, &failure)) {
        return told(false, false, &failure);
    }
    bool is_right = parts.numbers[0] == 1 && parts.numbers[1] == 2 && parts.numbers[2] == 3 && parts.prerelease.length == 4;
    return is_right && memcmp(parts.prerelease.bytes, "rc.5", 4) == 0 ? 'y' : '?';
}

/* Whether a version is found, which is 1.2.0. */
static char ask_coerced(struct text range, struct text version) {
    struct failure failure;
    char room[MAX_COERCED];
    size_t length = 0;
    (void)range;
    bool is_made = coerced_text(version, room, &length, &failure);
    if (is_made && length > 0 && (length != 5 || memcmp(room, "1.2.0", 5) != 0)) {
        return '?';
    }
    return told(is_made, length > 0, &failure);
}

/* Whether each interval ends above where it begins; a key of an interval that is not made is memory that is out. */
static char ask_intervals(struct text range, struct text version) {
    node_semver_intervals intervals = NODE_SEMVER_EMPTY;
    struct failure failure;
    char said = 'y';
    (void)version;
    bool is_made = intervals_of_text(range, MAX_RANGE_BYTES, &intervals, &failure);
    for (size_t place = 0; is_made && place < node_semver_intervals_count(&intervals); place++) {
        struct key lower = {0}, upper = {0};
        if (!lower_key(&intervals, place, &lower)) {
            said = 'm';
            continue;
        }
        if (!upper_key(&intervals, place, &upper)) {
            said = 'm';
        } else {
            size_t shared = lower.length < upper.length ? lower.length : upper.length;
            int order = memcmp(lower.bytes, upper.bytes, shared);
            said = order < 0 || (order == 0 && lower.length < upper.length) ? said : '?';
            free_key(&upper);
        }
        free_key(&lower);
    }
    node_semver_intervals_free(intervals);
    return is_made ? said : told(false, false, &failure);
}

static int passed, failed;

static void check(bool is_right, const char *what, const char *name, size_t number) {
    if (is_right) {
        passed++;
        return;
    }
    failed++;
    printf("WRONG: request %zu of %s: %s\n", number, name, what);
}

/* Makes a call with each of its requests refused, and returns how many there are. */
static size_t refuse_each(const char *name, call *make, struct text range, struct text version, char wanted) {
    for (size_t number = 0;; number++) {
        size_t blocks = blocks_in_use(), bytes = bytes_in_use();
        refuse_request(number, false);
        char said = make(range, version);
        size_t refusals = refused();
        refuse_request(0, false);
        check(said == wanted || (said == 'm' && refusals > 0), "another result", name, number);
        check(blocks_in_use() == blocks && bytes_in_use() == bytes, "memory is not given back", name, number);
        if (number > 0 && refusals == 0) {
            return number - 1;
        }
    }
}

#define TEXT(literal) ((struct text){literal, sizeof literal - 1})

int main(void) {
    static char room[BUFSIZ], word[201], long_range[500];
    struct text range = TEXT("^1.2.3-rc.4 || >=3 || 2.5"), none = TEXT("^1 || 2 foo");
    struct text version = TEXT("1.2.3-rc.5+build"), other = TEXT("2.4.0"), bad = TEXT("1.2.3.4");
    struct text holder = TEXT("node v1.2, or so"), empty = TEXT("none");
    size_t tried = 0;
    setvbuf(stdout, room, _IOFBF, sizeof room);
    memset(word, 'a', sizeof word - 1);
    snprintf(long_range, sizeof long_range, ">=1.0.0-%s <1.0.0 || >=2.0.0-%s <3", word, word);
    struct text long_keys = {long_range, strlen(long_range)};
    tried += refuse_each("key_of_text", ask_key, range, version, 'y');
    tried += refuse_each("key_of_text", ask_key, range, bad, 'r');
    tried += refuse_each("is_text_of_prerelease", ask_prerelease, range, version, 'y');
    tried += refuse_each("is_text_of_prerelease", ask_prerelease, range, other, 'n');
    tried += refuse_each("satisfies_text", ask_satisfies, range, version, 'y');
    tried += refuse_each("satisfies_text", ask_satisfies, range, other, 'n');
    tried += refuse_each("satisfies_text", ask_satisfies, none, other, 'r');
    tried += refuse_each("satisfies_text", ask_satisfies, range, bad, 'r');
    tried += refuse_each("intervals_of_text", ask_intervals, range, version, 'y');
    tried += refuse_each("intervals_of_text", ask_intervals, none, version, 'r');
    tried += refuse_each("intervals_of_text", ask_intervals, long_keys, version, 'y');
    tried += refuse_each("is_text_of_version", ask_validity, range, version, 'y');
    tried += refuse_each("is_text_of_version", ask_validity, range, bad, 'n');
    tried += refuse_each("parts_of_text", ask_parts, range, version, 'y');
    tried += refuse_each("parts_of_text", ask_parts, range, bad, 'r');
    tried += refuse_each("coerced_text", ask_coerced, range, holder, 'y');
    tried += refuse_each("coerced_text", ask_coerced, range, empty, 'n');
    check(tried > 20, "too few requests were refused", "all calls", tried);
    printf("%zu requests were refused\n%d passed, %d failed\n", tried, passed, failed);
    return failed != 0;
}
