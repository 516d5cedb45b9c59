/* SPDX-License-Identifier: Apache-2.0 */
/* The calls of the rows that read the sets of a range, or make a range of sets. */
#include "answers.h"

/* Writes a cut: its kind, and its version if it has one. */
static bool tell_cut(struct answer *answer, const node_semver_cut *cut) {
    static const char *const kinds[] = {"start", "before ", "after ", "end"};
    struct answer version = {""};
    if (cut->version.at != NULL) {
        tell_version(&version, &cut->version);
    }
    size_t length = strlen(answer->text);
    snprintf(answer->text + length, sizeof answer->text - length, "%s%s", kinds[cut->kind], version.text);
    return strcmp(version.text, "out of memory") != 0;
}

/* Reads each set of the range, makes the range of these sets again, and writes them if both ranges print alike. */
static void run_sets(const node_semver_range *range, struct answer *answer) {
    node_semver_set sets[4], past = NODE_SEMVER_EMPTY_SET;
    node_semver_range again = NODE_SEMVER_EMPTY;
    struct answer prints[2] = {{""}, {""}};
    size_t count = node_semver_range_set_count(range), read = 0;
    node_semver_status status = NODE_SEMVER_OK;
    while (read < count && status == NODE_SEMVER_OK) {
        sets[read] = (node_semver_set)NODE_SEMVER_EMPTY_SET;
        status = node_semver_range_set(range, read, &sets[read]);
        read += status == NODE_SEMVER_OK;
    }
    if (status == NODE_SEMVER_OK) {
        status = node_semver_range_from_sets(sets, count, &again);
    }
    bool is_told = status == NODE_SEMVER_OK;
    for (size_t i = 0; i < read; i++) {
        is_told = is_told && tell_cut(answer, &sets[i].lower);
        strcat(answer->text, i + 1 < 2 * count && is_told ? " " : "");
        is_told = is_told && tell_cut(answer, &sets[i].upper);
        strcat(answer->text, i + 1 < read && is_told ? ", " : "");
        node_semver_version_free(sets[i].lower.version);
        node_semver_version_free(sets[i].upper.version);
    }
    if (is_told) {
        tell_range(&prints[0], range);
        tell_range(&prints[1], &again);
    }
    if (status != NODE_SEMVER_OK) {
        tell_status(answer, status, NULL);
    } else if (!is_told || strcmp(prints[0].text, "out of memory") == 0 || strcmp(prints[1].text, "out of memory") == 0) {
        tell(answer, "out of memory");
    } else if (strcmp(prints[0].text, prints[1].text) != 0) {
        tell(answer, prints[1].text);
    } else if (node_semver_range_set(range, count, &past) == NODE_SEMVER_OK
               || node_semver_range_set(range, SIZE_MAX, &past) == NODE_SEMVER_OK || past.lower.version.at != NULL
               || past.upper.version.at != NULL) {
        tell(answer, "a set past the last");
    }
    node_semver_range_free(again);
}

/* Makes a range of one set between cuts of these kinds at the version, or of no set for a first kind of 9. */
static void run_set(const char *kinds, const node_semver_version *version, struct answer *answer) {
    node_semver_range made = NODE_SEMVER_EMPTY;
    node_semver_version none = NODE_SEMVER_EMPTY;
    uint32_t lower = (uint32_t)(kinds[0] - '0'), upper = (uint32_t)(kinds[2] - '0');
    node_semver_set set = {{lower, kinds[1] == '-' ? none : *version}, {upper, kinds[3] == '-' ? none : *version}};
    node_semver_status status = node_semver_range_from_sets(&set, lower != 9, &made);
    if (status == NODE_SEMVER_OK) {
        tell_range(answer, &made);
    } else {
        tell_status(answer, status, NULL);
    }
    node_semver_range_free(made);
}

/* Makes ranges from just above a version up to the end, then from just above the least version of that range, and so
 * on, and writes the version above which no range begins. */
static void run_last(const char *text, struct answer *answer) {
    node_semver_version last = NODE_SEMVER_EMPTY, next = NODE_SEMVER_EMPTY, none = NODE_SEMVER_EMPTY;
    node_semver_range above = NODE_SEMVER_EMPTY;
    node_semver_status status = node_semver_version_parse(text, strlen(text), &last, NULL);
    for (int i = 0; i < 9 && status == NODE_SEMVER_OK; i++) {
        node_semver_set set = {{NODE_SEMVER_AFTER, last}, {NODE_SEMVER_END, none}};
        status = node_semver_range_from_sets(&set, 1, &above);
        if (status == NODE_SEMVER_OK) {
            status = node_semver_min_version(&above, &next);
            node_semver_range_free(above);
            above = (node_semver_range)NODE_SEMVER_EMPTY;
        }
        if (status == NODE_SEMVER_OK) {
            node_semver_version_free(last);
            last = next;
            next = none;
        }
    }
    if (status == NODE_SEMVER_NONE) {
        tell_version(answer, &last);
    } else {
        tell(answer, status == NODE_SEMVER_OUT_OF_MEMORY ? "out of memory" : "no last one");
    }
    node_semver_version_free(last);
}
