/* SPDX-License-Identifier: Apache-2.0 */
/*
 * Tests of node_semver.h on long lists: ranges of 1,000 sets, and arrays of 1,000 sets and of 1,000 versions.
 *
 *     lists           runs each test
 *     lists refuse    also runs each test with some of its requests for memory refused, one in each run
 *
 * Linked as rows.c is. Each test gives back each block that it got. Ends with status 0 where each test is as it should
 * be.
 */
#include "lists.h"
#include "memory.h"

/* Fills the array with versions I.5.0, in an order that neither rises nor falls: I is 7 times the place, modulo
 * 1,000. */
static bool parse_versions(void) {
    char one[32];
    for (size_t i = 0; i < MANY; i++) {
        snprintf(one, sizeof one, "%zu.5.0", 7 * i % MANY);
        if (!parse_version(&held.versions[i], one)) {
            return false;
        }
    }
    return true;
}

/* Reads all sets of the first range into the array. */
static bool read_sets(void) {
    if (!is(node_semver_range_set_count(&held.ranges[0]) == MANY, "another number of sets")) {
        return false;
    }
    for (size_t i = 0; i < MANY; i++) {
        if (!done(node_semver_range_set(&held.ranges[0], i, &held.sets[i]), "a set is not read")) {
            return false;
        }
    }
    return true;
}

static void a_range_has_all_sets(void) {
    if (!parse(&held.ranges[0], evens(0, MANY)) || !parse_versions() || !prints(&held.ranges[0], text)) {
        return;
    }
    for (size_t i = 0; i < MANY; i++) {
        size_t major = 7 * i % MANY;
        is(node_semver_satisfies(&held.ranges[0], &held.versions[i]) == (major % 2 == 0), "another answer");
        is(node_semver_range_contains(&held.ranges[0], &held.versions[i]) == (major % 2 == 0), "another content");
    }
}

static void npms_reading_has_all_sets(void) {
    evens(0, MANY);
    if (done(node_semver_range_parse_npm(text, strlen(text), false, true, &held.ranges[0], NULL), "it is not parsed")) {
        prints(&held.ranges[0], text);
    }
}

static void sets_make_the_range_again(void) {
    if (!parse(&held.ranges[0], evens(0, MANY)) || !read_sets()
        || !done(node_semver_range_from_sets(held.sets, MANY, &held.ranges[1]), "no range of all sets")) {
        return;
    }
    prints(&held.ranges[1], text);
    is(node_semver_range_equals(&held.ranges[0], &held.ranges[1]), "another range");
    is(node_semver_range_hash(&held.ranges[0]) == node_semver_range_hash(&held.ranges[1]), "another hash");
}

/* The last of 1,000 sets has a kind that is not known. */
static void a_bad_last_set_is_seen(void) {
    if (!parse(&held.ranges[0], evens(0, MANY)) || !read_sets()) {
        return;
    }
    held.sets[MANY - 1].upper.kind = 4;
    node_semver_status status = node_semver_range_from_sets(held.sets, MANY, &held.ranges[1]);
    is_out = is_out || status == NODE_SEMVER_OUT_OF_MEMORY;
    is(status == NODE_SEMVER_NONE && held.ranges[1].at == NULL, "a range of a bad set");
}

/* The union of 1,000 ranges, one by one. */
static void unions_gather_all_sets(void) {
    char one[32];
    if (!parse(&held.ranges[0], "0")) {
        return;
    }
    for (size_t i = 1; i < MANY; i++) {
        node_semver_range next = NODE_SEMVER_EMPTY, both = NODE_SEMVER_EMPTY;
        snprintf(one, sizeof one, "%zu", 2 * i);
        bool is_made = parse(&next, one)
            && done(node_semver_range_union(&held.ranges[0], &next, &both), "no union");
        node_semver_range_free(next);
        if (!is_made) {
            return;
        }
        node_semver_range_free(held.ranges[0]);
        held.ranges[0] = both;
    }
    prints(&held.ranges[0], evens(0, MANY));
}

static void intersections_and_differences_have_all_sets(void) {
    node_semver_range *all = &held.ranges[0], *high = &held.ranges[1];
    if (!parse(all, evens(0, MANY)) || !parse(high, ">=1000")
        || !done(node_semver_range_intersect(all, high, &held.ranges[2]), "no intersection")
        || !done(node_semver_range_difference(all, high, &held.ranges[3]), "no difference")) {
        return;
    }
    prints(&held.ranges[2], evens(MANY / 2, MANY));
    prints(&held.ranges[3], evens(0, MANY / 2));
    is(node_semver_range_allows_all(all, &held.ranges[2]), "the intersection is not covered");
    is(!node_semver_range_allows_all(&held.ranges[2], all), "the intersection covers all");
    is(node_semver_range_allows_any(all, &held.ranges[3]), "the difference shares nothing");
    is(!node_semver_range_allows_any(&held.ranges[2], &held.ranges[3]), "the two share a cut");
}

static void least_versions_are_found(void) {
    node_semver_range *all = &held.ranges[0], *but_one = &held.ranges[1], *one = &held.ranges[2];
    if (!parse(all, evens(0, MANY)) || !parse(but_one, evens(0, MANY - 1)) || !parse(one, evens(MANY - 1, MANY))) {
        return;
    }
    if (done(node_semver_least_beyond(all, but_one, &held.found), "nothing beyond")) {
        finds("1998.0.0");
    }
    if (done(node_semver_min_version(but_one, &held.found), "no least version")) {
        finds("0.0.0");
    }
    if (done(node_semver_range_least_common(all, one, &held.found), "nothing in common")) {
        finds("1998.0.0");
    }
}

/* Returns whether the best version is the one with this major, 1,000 for none. */
static bool chooses(bool is_greatest, const char *range, size_t major) {
    size_t place = MANY;
    if (!parse(&held.ranges[0], range)) {
        return false;
    }
    bool is_found = is_greatest ? node_semver_max_satisfying(held.versions, MANY, &held.ranges[0], &place)
                                : node_semver_min_satisfying(held.versions, MANY, &held.ranges[0], &place);
    node_semver_range_free(held.ranges[0]);
    held.ranges[0] = (node_semver_range)NODE_SEMVER_EMPTY;
    return is(is_found ? place < MANY && 7 * place % MANY == major : major == MANY, "another version is chosen");
}

static void the_best_of_many_versions_is_chosen(void) {
    if (!parse_versions()) {
        return;
    }
    chooses(true, ">=0", 999);
    chooses(true, evens(0, MANY), 998);
    chooses(true, "<993", 992);
    chooses(true, "993", 993);
    chooses(true, ">=1000", MANY);
    chooses(false, ">=0", 0);
    chooses(false, ">=993", 993);
    chooses(false, evens(MANY / 4, MANY), 500);
    chooses(false, ">=1000", MANY);
}

/* The same calls with prereleases included, on sets and versions of which each is a prerelease. */
static void prereleases_are_chosen(void) {
    char one[32];
    for (size_t i = 0; i < MANY; i++) {
        snprintf(one, sizeof one, "%zu.5.0-rc.%zu", 7 * i % MANY, i);
        if (!parse_version(&held.versions[i], one)) {
            return;
        }
    }
    size_t greatest = MANY, least = MANY;
    node_semver_range *all = &held.ranges[0], *but_one = &held.ranges[1], *one_set = &held.ranges[2];
    if (!parse(all, evens(0, MANY)) || !parse(but_one, evens(0, MANY - 1)) || !parse(one_set, evens(MANY - 1, MANY))) {
        return;
    }
    is(!node_semver_max_satisfying(held.versions, MANY, all, &greatest), "a prerelease satisfies");
    is(node_semver_max_satisfying_with_prereleases(held.versions, MANY, all, &greatest)
           && 7 * greatest % MANY == 998, "another greatest is chosen");
    is(node_semver_min_satisfying_with_prereleases(held.versions, MANY, all, &least) && 7 * least % MANY == 0,
       "another least is chosen");
    is(!node_semver_max_satisfying_with_prereleases(held.versions, MANY, one_set, &greatest), "none lies inside");
    if (done(node_semver_least_beyond_with_prereleases(all, but_one, &held.found), "nothing beyond")) {
        finds("1998.0.0");
    }
    if (done(node_semver_range_least_common_with_prereleases(all, one_set, &held.found), "nothing in common")) {
        finds("1998.0.0");
    }
    if (done(node_semver_min_version_with_prereleases(one_set, &held.found), "no least version")) {
        finds("1998.0.0");
    }
}

/* The texts of 1,000 versions, of which half satisfy the range of 1,000 sets; and a text with 1,000 numbers. */
static void texts_are_read(void) {
    char one[32];
    if (!parse(&held.ranges[0], evens(0, MANY))) {
        return;
    }
    for (size_t i = 0; i < MANY; i++) {
        bool answers[2] = {false, false};
        size_t length = (size_t)snprintf(one, sizeof one, "%zu.5.0-rc.1", i);
        is(node_semver_contains_strict(&held.ranges[0], one, length, &answers[0]) == NODE_SEMVER_OK
               && node_semver_satisfies_strict(&held.ranges[0], one, length - 5, &answers[1]) == NODE_SEMVER_OK
               && answers[0] == (i % 2 == 0) && answers[1] == (i % 2 == 0), "another answer for a text");
    }
    for (size_t i = 0; i < MANY; i++) {
        memcpy(text + 4 * i, " 17.", 4);
    }
    if (done(node_semver_version_coerce(text, 4 * MANY, false, &held.found), "nothing is found")) {
        finds("17.0.0");
    }
    if (done(node_semver_version_coerce(text, 4 * MANY, true, &held.found), "nothing is found at the end")) {
        finds("17.0.0");
    }
    if (done(node_semver_version_coerce_with_prerelease(text, 4 * MANY, true, &held.found), "nothing is found there")) {
        finds("17.0.0");
    }
}

/* The keys of 1,000 versions, two by two: they are in the order of the versions. */
static void keys_are_in_the_order_of_versions(void) {
    static unsigned char keys[MANY][64];
    static size_t lengths[MANY];
    char one[48];
    static const char *const ends[] = {"", "-0", "-1", "-240", "-0.0", "-1.a", "-a", "-a.0", "-a-", "-aa", "-A", "--", "-rc.10"};
    static const char *const starts[] = {"0.0.0", "1.2.3", "1.2.240", "1.2.256", "240.0.0", "1.65536.2", "2.0.9007199254740991"};
    for (size_t i = 0; i < MANY; i++) {
        snprintf(one, sizeof one, "%s%s", starts[i % 7], ends[i / 7 % 13]);
        if (i >= 91) {
            snprintf(one, sizeof one, "%zu.%zu.%zu", i % 11, 97 * i % 300, i % 5);
        }
        if (!parse_version(&held.versions[i], one)) {
            return;
        }
        lengths[i] = node_semver_version_key(&held.versions[i], keys[i], sizeof keys[i]);
        is_out = is_out || lengths[i] == 0;
        is(lengths[i] <= sizeof keys[i], "a long key");
    }
    for (size_t i = 0; i < MANY && !is_out; i++) {
        for (size_t j = 0; j < MANY; j++) {
            size_t shorter = lengths[i] < lengths[j] ? lengths[i] : lengths[j];
            int order = memcmp(keys[i], keys[j], shorter);
            bool is_start = order == 0 && lengths[i] != lengths[j];
            int wanted = node_semver_version_compare(&held.versions[i], &held.versions[j]);
            is(!is_start && (order > 0) - (order < 0) == wanted, "keys in another order, or one that is the start of another");
        }
    }
}

/* 1,000 sets that do not touch, and 1,000 that do: the intervals of their keys. */
static void intervals_are_those_of_all_sets(void) {
    node_semver_intervals made = NODE_SEMVER_EMPTY;
    unsigned char room[64];
    if (!parse(&held.ranges[0], evens(0, MANY))
        || !done(node_semver_range_intervals(&held.ranges[0], &made), "no intervals")) {
        return;
    }
    is(node_semver_intervals_count(&made) == MANY, "another number of intervals");
    is(node_semver_interval_lower(&made, 1, room, sizeof room) == 4 && memcmp(room, "\2\0\0\xff", 4) == 0, "another end");
    node_semver_intervals_free(made);
    made = (node_semver_intervals)NODE_SEMVER_EMPTY;
    size_t length = 0;
    for (size_t i = 0; i < MANY; i++) {
        length += (size_t)snprintf(text + length, ROOM - length, "%s>=1.0.0-%zu <1.0.0-%zu", i == 0 ? "" : "||", i, i + 1);
    }
    if (!parse(&held.ranges[1], text) || !done(node_semver_range_intervals(&held.ranges[1], &made), "no intervals of them")) {
        return;
    }
    is(node_semver_intervals_count(&made) == 2 && node_semver_interval_is_of_prereleases(&made, 1), "they are not joined");
    node_semver_intervals_free(made);
}

/* 1,000 versions that differ in the build alone. */
static void the_first_of_many_equals_is_chosen(void) {
    char one[32];
    size_t places[2] = {MANY, MANY};
    for (size_t i = 0; i < MANY; i++) {
        snprintf(one, sizeof one, "%s+%zu", i < MANY / 2 ? "1.2.3-rc.1" : "1.2.3", i);
        if (!parse_version(&held.versions[i], one)) {
            return;
        }
    }
    if (!parse(&held.ranges[0], "^1")) {
        return;
    }
    is(node_semver_max_satisfying(held.versions, MANY, &held.ranges[0], &places[0]) && places[0] == MANY / 2
           && node_semver_min_satisfying(held.versions, MANY, &held.ranges[0], &places[1]) && places[1] == MANY / 2,
       "another of equals is chosen");
}

static const struct {
    const char *name;
    void (*run)(void);
} tests[] = {
    {"a range has all sets", a_range_has_all_sets},
    {"npm's reading has all sets", npms_reading_has_all_sets},
    {"sets make the range again", sets_make_the_range_again},
    {"a bad last set is seen", a_bad_last_set_is_seen},
    {"unions gather all sets", unions_gather_all_sets},
    {"intersections and differences have all sets", intersections_and_differences_have_all_sets},
    {"least versions are found", least_versions_are_found},
    {"the best of many versions is chosen", the_best_of_many_versions_is_chosen},
    {"the first of many equals is chosen", the_first_of_many_equals_is_chosen},
    {"prereleases are chosen", prereleases_are_chosen},
    {"texts are read", texts_are_read},
    {"keys are in the order of versions", keys_are_in_the_order_of_versions},
    {"intervals are those of all sets", intervals_are_those_of_all_sets},
};

static void free_all(void) {
    for (size_t i = 0; i < sizeof held.ranges / sizeof held.ranges[0]; i++) {
        node_semver_range_free(held.ranges[i]);
    }
    for (size_t i = 0; i < MANY; i++) {
        node_semver_version_free(held.sets[i].lower.version);
        node_semver_version_free(held.sets[i].upper.version);
        node_semver_version_free(held.versions[i]);
    }
    node_semver_version_free(held.found);
    memset(&held, 0, sizeof held);
}

/* Runs a test, and returns whether it is right and leaves no block. Out of memory is right if a request was refused. */
static bool is_right(size_t test) {
    long before = blocks;
    requests = 0;
    wrong = NULL;
    is_out = false;
    tests[test].run();
    free_all();
    if (blocks != before) {
        wrong = "blocks are left";
    } else if (is_out && wrong == NULL && (refused == 0 || refused > requests)) {
        wrong = "out of memory";
    }
    if (wrong != NULL) {
        printf("WRONG: %s: %s (request %lu refused)\n", tests[test].name, wrong, refused);
    }
    return wrong == NULL;
}

int main(int count, char **words) {
    bool refuses = count == 2 && strcmp(words[1], "refuse") == 0;
    unsigned long failed = 0, runs = 0;
    size_t tests_count = sizeof tests / sizeof tests[0];
    for (size_t i = 0; i < tests_count; i++) {
        refused = 0;
        failed += !is_right(i);
        unsigned long step = requests / 20 + 1, made = requests;
        for (refused = 1; refuses && refused <= made; refused += step) {
            failed += !is_right(i);
            runs++;
        }
    }
    printf("%zu tests of lists of %d, %lu runs with a request refused: %lu wrong\n", tests_count, MANY, runs, failed);
    return failed != 0;
}
