/* SPDX-License-Identifier: Apache-2.0 */
/*
 * Tests of node_semver.h: worked rows of the documents, each a call and what it returns.
 *
 *     rows           runs each row
 *     rows refuse    also runs each row with each request for memory refused in turn
 *
 * To be linked with -Wl,--wrap=malloc -Wl,--wrap=realloc -Wl,--wrap=free. Where the library is the static one, its
 * requests are counted too: each row gives back each block that it got. Ends with status 0 where each row is as it
 * should be.
 */
#include "bumps.h"
#include "calls.h"
#include "keys.h"
#include "memory.h"
#include "sets.h"
#include "strict.h"

struct row {
    const char *call;
    /* Of its texts, `v` a version, `s` a strict one, `r` a range; and a range as npm reads it: `n` strict, `l` loose, `p`
     * with prereleases, `b` with both options. None where the call reads them itself. */
    const char *kinds;
    const char *texts[2];
    const char *answer;
};

#include "rows.h"

static void run(const struct row *row, struct answer *answer) {
    struct read read;
    answer->text[0] = '\0';
    if (!read_texts(&read, row->kinds, row->texts, answer)) {
        return;
    }
    const node_semver_version *v = read.versions;
    const node_semver_range *r = read.ranges;
    if (strcmp(row->call, "print") == 0) {
        if (v[0].at != NULL) {
            tell_version(answer, &v[0]);
        } else {
            tell_range(answer, &r[0]);
        }
    } else if (strcmp(row->call, "fields") == 0) {
        tell_fields(answer, &v[0]);
    } else if (strcmp(row->call, "past") == 0) {
        tell_past(answer, &v[0]);
    } else if (strcmp(row->call, "short") == 0) {
        tell_room(answer, &v[0], 4);
    } else if (strcmp(row->call, "long") == 0) {
        tell_room(answer, &v[0], 16);
    } else if (strcmp(row->call, "unread") == 0) {
        run_unread(row->texts[1], row->texts[0], answer);
    } else if (strcmp(row->call, "compare") == 0) {
        snprintf(answer->text, sizeof answer->text, "%" PRId32, node_semver_version_compare(&v[0], &v[1]));
    } else if (strcmp(row->call, "compare_build") == 0) {
        snprintf(answer->text, sizeof answer->text, "%" PRId32, node_semver_version_compare_build(&v[0], &v[1]));
    } else if (strcmp(row->call, "diff") == 0) {
        tell_bump(answer, node_semver_version_diff(&v[0], &v[1]), node_semver_version_diff(&v[1], &v[0]));
    } else if (strcmp(row->call, "bump") == 0) {
        run_bump(row->texts[1], &v[0], answer);
    } else if (strcmp(row->call, "hash") == 0) {
        tell_truth(answer, row->kinds[0] == 'v' ? node_semver_version_hash(&v[0]) == node_semver_version_hash(&v[1])
                                                : node_semver_range_hash(&r[0]) == node_semver_range_hash(&r[1]));
    } else if (strcmp(row->call, "equals") == 0) {
        tell_truth(answer, node_semver_range_equals(&r[0], &r[1]));
    } else if (strcmp(row->call, "satisfies") == 0) {
        tell_truth(answer, node_semver_satisfies(&r[0], &v[1]));
    } else if (strcmp(row->call, "contains") == 0) {
        tell_truth(answer, node_semver_range_contains(&r[0], &v[1]));
    } else if (strcmp(row->call, "allows_any") == 0) {
        tell_truth(answer, node_semver_range_allows_any(&r[0], &r[1]));
    } else if (strcmp(row->call, "allows_all") == 0) {
        tell_truth(answer, node_semver_range_allows_all(&r[0], &r[1]));
    } else if (strcmp(row->call, "intersect") == 0) {
        run_algebra(node_semver_range_intersect, &read, answer);
    } else if (strcmp(row->call, "difference") == 0) {
        run_algebra(node_semver_range_difference, &read, answer);
    } else if (strcmp(row->call, "union") == 0) {
        run_algebra(node_semver_range_union, &read, answer);
    } else if (strcmp(row->call, "min_version") == 0) {
        run_search(min_version, &read, answer);
    } else if (strcmp(row->call, "min_version_with") == 0) {
        run_search(min_version_with, &read, answer);
    } else if (strcmp(row->call, "least_beyond_with") == 0) {
        run_search(node_semver_least_beyond_with_prereleases, &read, answer);
    } else if (strcmp(row->call, "least_common_with") == 0) {
        run_search(node_semver_range_least_common_with_prereleases, &read, answer);
    } else if (strcmp(row->call, "coerce") == 0) {
        run_coerce(node_semver_version_coerce, row->texts[0], strcmp(row->texts[1], "rtl") == 0, answer);
    } else if (strcmp(row->call, "coerce_with") == 0) {
        run_coerce(node_semver_version_coerce_with_prerelease, row->texts[0], strcmp(row->texts[1], "rtl") == 0, answer);
    } else if (strcmp(row->call, "satisfies_strict") == 0) {
        run_question(node_semver_satisfies_strict, &r[0], row->texts[1], answer);
    } else if (strcmp(row->call, "contains_strict") == 0) {
        run_question(node_semver_contains_strict, &r[0], row->texts[1], answer);
    } else if (strcmp(row->call, "max_satisfying_with") == 0) {
        run_choice(node_semver_max_satisfying_with_prereleases, row->texts, answer);
    } else if (strcmp(row->call, "min_satisfying_with") == 0) {
        run_choice(node_semver_min_satisfying_with_prereleases, row->texts, answer);
    } else if (strcmp(row->call, "least_beyond") == 0) {
        run_search(node_semver_least_beyond, &read, answer);
    } else if (strcmp(row->call, "least_common") == 0) {
        run_search(node_semver_range_least_common, &read, answer);
    } else if (strcmp(row->call, "sets") == 0) {
        run_sets(&r[0], answer);
    } else if (strcmp(row->call, "set") == 0) {
        run_set(row->texts[1], &v[0], answer);
    } else if (strcmp(row->call, "key") == 0) {
        run_key(&v[0], answer);
    } else if (strcmp(row->call, "key_back") == 0) {
        run_key_back(&v[0], answer);
    } else if (strcmp(row->call, "intervals") == 0) {
        run_intervals(node_semver_range_intervals, &r[0], answer);
    } else if (strcmp(row->call, "intervals_with") == 0) {
        run_intervals(node_semver_range_intervals_with_prereleases, &r[0], answer);
    } else if (strcmp(row->call, "last") == 0) {
        run_last(row->texts[0], answer);
    } else if (strcmp(row->call, "max_satisfying") == 0) {
        run_choice(node_semver_max_satisfying, row->texts, answer);
    } else if (strcmp(row->call, "min_satisfying") == 0) {
        run_choice(node_semver_min_satisfying, row->texts, answer);
    } else if (strcmp(row->call, "satisfies_text") == 0) {
        run_texts(row->texts, answer);
    } else {
        tell(answer, "no such call");
    }
    free_read(&read);
}

/* Returns whether the row gives its result and leaves no block. If a request was refused, out of memory is right too, and
 * so is the row's own result: a call may go on without an allocation that only saves memory. */
static bool is_right(const struct row *row) {
    struct answer answer;
    requests = 0;
    long before = blocks;
    run(row, &answer);
    if (blocks != before) {
        printf("LEAK: %s %s: %ld blocks (request %lu refused)\n", row->call, row->texts[0], blocks - before, refused);
        return false;
    }
    bool is_met = refused != 0 && refused <= requests;
    if (strcmp(answer.text, row->answer) == 0 || (is_met && strcmp(answer.text, "out of memory") == 0)) {
        return true;
    }
    printf("WRONG: %s %s %s: %s, and not %s (request %lu refused)\n", row->call, row->texts[0],
           row->texts[1] == NULL ? "" : row->texts[1], answer.text, row->answer, refused);
    return false;
}

int main(int count, char **words) {
    bool refuses = count == 2 && strcmp(words[1], "refuse") == 0;
    unsigned long wrong = 0, runs = 0;
    size_t rows_count = sizeof rows / sizeof rows[0];
    for (size_t i = 0; i < rows_count; i++) {
        refused = 0;
        wrong += !is_right(&rows[i]);
        unsigned long made = requests;
        for (refused = 1; refuses && refused <= made; refused++) {
            wrong += !is_right(&rows[i]);
            runs++;
        }
    }
    printf("%zu rows, %lu runs with a request refused: %lu wrong\n", rows_count, runs, wrong);
    return wrong != 0;
}
