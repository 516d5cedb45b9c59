/* SPDX-License-Identifier: Apache-2.0 */
/* The calls of the rows: each reads its texts, makes its call, and writes the result. */
#include "answers.h"

/* Two texts at most, read as versions or as ranges. */
struct read {
    node_semver_version versions[2];
    node_semver_range ranges[2];
};

/* Some of the handles are empty. */
static void free_read(struct read *read) {
    for (int i = 0; i < 2; i++) {
        node_semver_version_free(read->versions[i]);
        node_semver_range_free(read->ranges[i]);
    }
}

/* Returns false, with the status written and nothing kept, if a text is refused. */
static bool read_texts(struct read *read, const char *kinds, const char *const *texts, struct answer *answer) {
    *read = (struct read){{NODE_SEMVER_EMPTY, NODE_SEMVER_EMPTY}, {NODE_SEMVER_EMPTY, NODE_SEMVER_EMPTY}};
    for (int i = 0; kinds[i] != '\0'; i++) {
        node_semver_fault fault = UNTOLD;
        size_t length = strlen(texts[i]);
        bool is_loose = kinds[i] == 'l' || kinds[i] == 'b', with_prereleases = kinds[i] == 'p' || kinds[i] == 'b';
        node_semver_status status = kinds[i] == 'v'
            ? node_semver_version_parse(texts[i], length, &read->versions[i], &fault)
            : kinds[i] == 's' ? node_semver_version_parse_strict(texts[i], length, &read->versions[i], &fault)
            : kinds[i] == 'r' ? node_semver_range_parse(texts[i], length, &read->ranges[i], &fault)
                              : node_semver_range_parse_npm(texts[i], length, is_loose, with_prereleases, &read->ranges[i],
                                                            &fault);
        if (!is_kept(status, &fault)) {
            tell(answer, "a fault was written");
            free_read(read);
            return false;
        }
        if (status != NODE_SEMVER_OK) {
            tell_status(answer, status, &fault);
            free_read(read);
            return false;
        }
    }
    return true;
}

/* A call of one or two ranges that makes a range or a version. */
typedef node_semver_status algebra(const node_semver_range *, const node_semver_range *, node_semver_range *);
typedef node_semver_status search(const node_semver_range *, const node_semver_range *, node_semver_version *);

static void run_algebra(algebra *call, const struct read *read, struct answer *answer) {
    node_semver_range found = NODE_SEMVER_EMPTY;
    node_semver_status status = call(&read->ranges[0], &read->ranges[1], &found);
    if (status != NODE_SEMVER_OK) {
        tell_status(answer, status, NULL);
        return;
    }
    tell_range(answer, &found);
    node_semver_range_free(found);
}

/* The calls of one range. */
static node_semver_status min_version(const node_semver_range *one, const node_semver_range *other,
                                      node_semver_version *found) {
    (void)other;
    return node_semver_min_version(one, found);
}

static node_semver_status min_version_with(const node_semver_range *one, const node_semver_range *other,
                                           node_semver_version *found) {
    (void)other;
    return node_semver_min_version_with_prereleases(one, found);
}

static void run_search(search *call, const struct read *read, struct answer *answer) {
    node_semver_version found = NODE_SEMVER_EMPTY;
    node_semver_status status = call(&read->ranges[0], &read->ranges[1], &found);
    if (status != NODE_SEMVER_OK) {
        tell_status(answer, status, NULL);
        return;
    }
    tell_version(answer, &found);
    node_semver_version_free(found);
}

/* A call of an array of versions, which finds the place of one. */
typedef bool choice(const node_semver_version *, size_t, const node_semver_range *, size_t *);

/* Versions of a text with blanks between, of which the range admits this one as the greatest, or the least. */
static void run_choice(choice *call, const char *const *texts, struct answer *answer) {
    node_semver_version versions[8];
    node_semver_range range = NODE_SEMVER_EMPTY;
    node_semver_fault fault = {0, 0, 0};
    size_t count = 0, place = 0;
    node_semver_status status = node_semver_range_parse(texts[0], strlen(texts[0]), &range, &fault);
    const char *rest = texts[1];
    while (status == NODE_SEMVER_OK && *rest != '\0') {
        size_t length = strcspn(rest, " ");
        versions[count] = (node_semver_version)NODE_SEMVER_EMPTY;
        status = node_semver_version_parse(rest, length, &versions[count], &fault);
        count += status == NODE_SEMVER_OK;
        rest += length + strspn(rest + length, " ");
    }
    if (status != NODE_SEMVER_OK) {
        tell_status(answer, status, &fault);
    } else if (call(versions, count, &range, &place)) {
        snprintf(answer->text, sizeof answer->text, "%zu", place);
    } else {
        tell(answer, "none");
    }
    while (count > 0) {
        node_semver_version_free(versions[--count]);
    }
    node_semver_range_free(range);
}

/* Makes the call with a bool of this value, which must keep it if the call does not succeed. */
static void run_texts_over(bool before, const char *const *texts, struct answer *answer) {
    node_semver_fault fault = UNTOLD;
    bool satisfies = before;
    node_semver_status status = node_semver_satisfies_text(texts[0], strlen(texts[0]), texts[1], strlen(texts[1]),
                                                           &satisfies, &fault);
    if (!is_kept(status, &fault)) {
        tell(answer, "a fault was written");
    } else if (status == NODE_SEMVER_OK) {
        tell_truth(answer, satisfies);
    } else if (satisfies != before) {
        tell(answer, "an answer was written");
    } else {
        tell_status(answer, status, &fault);
    }
}

/* Makes the call twice. Both times the result is the same, or a request was refused. */
static void run_texts(const char *const *texts, struct answer *answer) {
    struct answer again;
    run_texts_over(false, texts, answer);
    run_texts_over(true, texts, &again);
    if (strcmp(answer->text, again.text) != 0 && strcmp(answer->text, "out of memory") != 0) {
        *answer = again;
    }
}

/* The numbers, and the identifiers of the prerelease and of the build in brackets. */
static void tell_fields(struct answer *answer, const node_semver_version *version) {
    size_t size = sizeof answer->text, length;
    length = (size_t)snprintf(answer->text, size, "%" PRIu64 " %" PRIu64 " %" PRIu64,
                              node_semver_version_major(version), node_semver_version_minor(version),
                              node_semver_version_patch(version));
    for (size_t i = 0; i < node_semver_version_pre_release_count(version); i++) {
        answer->text[length++] = ' ';
        size_t more = node_semver_version_pre_release_print(version, i, answer->text + length, size - length - 16);
        if (more == 0) {
            tell(answer, "out of memory");
            return;
        }
        length += more;
    }
    for (size_t i = 0; i < node_semver_version_build_count(version); i++) {
        length += (size_t)snprintf(answer->text + length, size - length, " +");
        size_t more = node_semver_version_build_print(version, i, answer->text + length, size - length - 16);
        if (more == 0) {
            tell(answer, "out of memory");
            return;
        }
        length += more;
    }
    snprintf(answer->text + length, size - length, "%s",
             node_semver_version_is_prerelease(version) ? " prerelease" : " release");
}

/* Parses with a NULL fault, and writes the status. */
static void run_unread(const char *kind, const char *text, struct answer *answer) {
    node_semver_version version = NODE_SEMVER_EMPTY;
    node_semver_range range = NODE_SEMVER_EMPTY;
    bool satisfies = false;
    size_t length = strlen(text);
    node_semver_status status = kind[0] == 'v' ? node_semver_version_parse(text, length, &version, NULL)
        : kind[0] == 's' ? node_semver_version_parse_strict(text, length, &version, NULL)
        : kind[0] == 'n' ? node_semver_range_parse_npm(text, length, false, false, &range, NULL)
        : kind[0] == 'r' ? node_semver_range_parse(text, length, &range, NULL)
                         : node_semver_satisfies_text(text, length, text, length, &satisfies, NULL);
    if (status == NODE_SEMVER_OUT_OF_MEMORY) {
        tell(answer, "out of memory");
    } else {
        snprintf(answer->text, sizeof answer->text, "%" PRIu32, status);
    }
    node_semver_version_free(version);
    node_semver_range_free(range);
}

/* The identifiers past the last one: 0 bytes, and the array stays as it was. */
static void tell_past(struct answer *answer, const node_semver_version *version) {
    char room[4] = {'s', 'a', 'm', 'e'};
    size_t past[] = {0, 1, 1000, SIZE_MAX};
    for (size_t i = 0; i < 4; i++) {
        size_t pre_release = node_semver_version_pre_release_count(version) + past[i];
        size_t build = node_semver_version_build_count(version) + past[i];
        pre_release = past[i] == SIZE_MAX ? SIZE_MAX : pre_release;
        build = past[i] == SIZE_MAX ? SIZE_MAX : build;
        if (node_semver_version_pre_release_print(version, pre_release, room, sizeof room) != 0
            || node_semver_version_build_print(version, build, room, sizeof room) != 0
            || memcmp(room, "same", sizeof room) != 0) {
            tell(answer, "printed");
            return;
        }
    }
    tell(answer, "nothing");
}

/* Prints into an array of this size, and writes the length and the bytes of the whole room. */
static void tell_room(struct answer *answer, const node_semver_version *version, size_t size) {
    char room[16];
    memset(room, '.', sizeof room);
    size_t length = node_semver_version_print(version, room, size);
    if (length == 0) {
        tell(answer, "out of memory");
    } else {
        snprintf(answer->text, sizeof answer->text, "%zu %.*s", length, (int)sizeof room, room);
    }
}
