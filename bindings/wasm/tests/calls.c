/* SPDX-License-Identifier: Apache-2.0 */
/*
 * Makes calls of each function of node_semver.h, and writes each with what it gave. Built natively and as WebAssembly, it writes the
 * same: tests/run compares the two.
 *
 * First come the texts of the rows of the tests for C: each call that takes such texts is made with each of them. Then calls are made
 * of texts that a generator makes. Each call is made again with each of its requests for memory refused in turn.
 */
#include "library.h"
#include "made.h"
#include "said.h"

/* ---- versions and ranges that are kept, for calls to take ---- */

#define KEPT 16

static struct handle versions[KEPT], ranges[KEPT];
static struct handle version, range, intervals;
static char room[1 << 16];

static const struct handle *a_version(void) {
    return &versions[below(KEPT)];
}

static const struct handle *a_range(void) {
    return &ranges[below(KEPT)];
}

static void *pointer(struct handle handle) {
    return (void *)(uintptr_t)handle.at;
}

/* What a call has written to the room, or how long it is where it does not fit. */
static void say_room(size_t length) {
    if (length > sizeof room) {
        say_number(length);
    } else {
        say_bytes(room, length);
    }
}

static void say_version(const struct handle *it) {
    say_room(node_semver_version_print(it, room, sizeof room));
}

/* A status, and the version or the range that was made. */
static void say_made(uint32_t status) {
    say_number(status);
    if (version.at != 0) {
        say_version(&version);
    }
    if (range.at != 0) {
        say_room(node_semver_range_print(&range, room, sizeof room));
    }
}

static void say_fault(uint32_t status, const struct fault *fault) {
    say_made(status);
    say_number(fault->kind), say_number(fault->offset), say_number(fault->number);
}

/* ---- the calls ---- */

static struct text one, other;

static void parse_version(void) {
    struct fault fault = {0, 0, 0, 0};
    uint32_t status = node_semver_version_parse(one.bytes, one.length, &version, &fault);
    say_fault(status, &fault);
}

static void parse_strict(void) {
    struct fault fault = {0, 0, 0, 0};
    uint32_t status = node_semver_version_parse_strict(one.bytes, one.length, &version, &fault);
    say_fault(status, &fault);
}

static void parse_range(void) {
    struct fault fault = {0, 0, 0, 0};
    uint32_t status = node_semver_range_parse(other.bytes, other.length, &range, &fault);
    say_fault(status, &fault);
}

static void parse_npm(void) {
    struct fault fault = {0, 0, 0, 0};
    bool is_loose = below(2) == 0, with_prereleases = below(2) == 0;
    uint32_t status = node_semver_range_parse_npm(other.bytes, other.length, is_loose, with_prereleases, &range, &fault);
    say_fault(status, &fault);
}

static void satisfies_text(void) {
    struct fault fault = {0, 0, 0, 0};
    bool answer = false;
    uint32_t status = node_semver_satisfies_text(other.bytes, other.length, one.bytes, one.length, &answer, &fault);
    say_fault(status, &fault), say_number(answer);
}

static void satisfies_strict(void) {
    bool answer = false;
    say_number(node_semver_satisfies_strict(a_range(), one.bytes, one.length, &answer)), say_number(answer);
}

static void contains_strict(void) {
    bool answer = false;
    say_number(node_semver_contains_strict(a_range(), one.bytes, one.length, &answer)), say_number(answer);
}

static void coerce(void) {
    say_made(node_semver_version_coerce(one.bytes, one.length, below(2) == 0, &version));
}

static void coerce_with_prerelease(void) {
    say_made(node_semver_version_coerce_with_prerelease(one.bytes, one.length, below(2) == 0, &version));
}

static void bump(void) {
    static const char *const identifiers[] = {"", "beta", "rc", "0", "a b", "beta.1", "7", "\xff"};
    const char *identifier = ONE_OF(identifiers);
    size_t length = 0;
    while (identifier[length] != '\0') {
        length++;
    }
    uint32_t number = below(10), base = below(4);
    say_made(node_semver_version_bump(a_version(), number, identifier, length, base, &version));
}

static void order(void) {
    const struct handle *left = a_version(), *right = a_version();
    say_number((uint64_t)(node_semver_version_compare(left, right) + 1));
    say_number((uint64_t)(node_semver_version_compare_build(left, right) + 1));
    say_number(node_semver_version_diff(left, right));
}

static void parts(void) {
    const struct handle *it = a_version();
    say_number(node_semver_version_major(it)), say_number(node_semver_version_minor(it)), say_number(node_semver_version_patch(it));
    say_number(node_semver_version_is_prerelease(it)), say_number(node_semver_version_hash(it));
    size_t words = node_semver_version_pre_release_count(it), builds = node_semver_version_build_count(it);
    for (size_t i = 0; i <= words; i++) {
        say_room(node_semver_version_pre_release_print(it, i, room, sizeof room));
    }
    for (size_t i = 0; i <= builds; i++) {
        say_room(node_semver_version_build_print(it, i, room, sizeof room));
    }
}

/* Rooms of each size up to that of the print: what does not fit is not written. */
static void short_rooms(void) {
    const struct handle *it = a_version();
    size_t size = below(40);
    for (size_t i = 0; i < sizeof room && i < 48; i++) {
        room[i] = '_';
    }
    size_t length = node_semver_version_print(it, room, size);
    say_number(length), say_bytes(room, 48);
}

static void key(void) {
    say_room(node_semver_version_key(a_version(), room, sizeof room));
}

/* A version is read back from its key; and from bytes of which one is changed. */
static void key_back(void) {
    size_t length = node_semver_version_key(a_version(), room, sizeof room);
    say_made(node_semver_version_of_key(room, length, &version));
    if (below(2) == 0 && length > 0) {
        node_semver_version_free(pointer(version));
        version.at = 0;
        room[below((uint32_t)length)] ^= (char)(1 << below(8));
        say_made(node_semver_version_of_key(room, length - below(2), &version));
    }
}

static void admits(void) {
    const struct handle *r = a_range(), *v = a_version();
    say_number(node_semver_satisfies(r, v)), say_number(node_semver_range_contains(r, v));
}

static void both_ranges(void) {
    const struct handle *left = a_range(), *right = a_range();
    say_number(node_semver_range_equals(left, right)), say_number(node_semver_range_hash(left));
    say_number(node_semver_range_allows_any(left, right)), say_number(node_semver_range_allows_all(left, right));
}

static void intersect(void) {
    say_made(node_semver_range_intersect(a_range(), a_range(), &range));
}

static void difference(void) {
    say_made(node_semver_range_difference(a_range(), a_range(), &range));
}

static void unite(void) {
    say_made(node_semver_range_union(a_range(), a_range(), &range));
}

static void min_version(void) {
    say_made(node_semver_min_version(a_range(), &version));
}

static void min_version_with_prereleases(void) {
    say_made(node_semver_min_version_with_prereleases(a_range(), &version));
}

static void least_beyond(void) {
    say_made(node_semver_least_beyond(a_range(), a_range(), &version));
}

static void least_beyond_with_prereleases(void) {
    say_made(node_semver_least_beyond_with_prereleases(a_range(), a_range(), &version));
}

static void least_common(void) {
    say_made(node_semver_range_least_common(a_range(), a_range(), &version));
}

static void least_common_with_prereleases(void) {
    say_made(node_semver_range_least_common_with_prereleases(a_range(), a_range(), &version));
}

static void best(void) {
    const struct handle *r = a_range();
    uint64_t place = 99;
    say_number(node_semver_max_satisfying(versions, KEPT, r, &place)), say_number(place);
    say_number(node_semver_min_satisfying(versions, KEPT, r, &place)), say_number(place);
    say_number(node_semver_max_satisfying_with_prereleases(versions, KEPT, r, &place)), say_number(place);
    say_number(node_semver_min_satisfying_with_prereleases(versions, KEPT, r, &place)), say_number(place);
    say_number(node_semver_max_satisfying(versions, 0, r, &place));
}

/* The sets of a range, and the range that is made of them; of some with a cut changed. */
static void sets(void) {
    static struct set found[64];
    const struct handle *it = a_range();
    size_t count = node_semver_range_set_count(it);
    say_number(count);
    count = count < 64 ? count : 64;
    size_t made = 0;
    for (size_t i = 0; i <= count && i < 64; i++) {
        found[i] = (struct set){{0, 0, {0}}, {0, 0, {0}}};
        uint32_t status = node_semver_range_set(it, i, &found[i]);
        say_number(status);
        if (status != 0) {
            break;
        }
        made++;
        const struct cut *cuts[] = {&found[i].lower, &found[i].upper};
        for (int j = 0; j < 2; j++) {
            say_number(cuts[j]->kind);
            if (cuts[j]->version.at != 0) {
                say_version(&cuts[j]->version);
            }
        }
    }
    if (made > 0 && below(3) == 0) {
        found[below((uint32_t)made)].lower.kind = below(5);
    }
    say_made(node_semver_range_from_sets(found, made, &range));
    for (size_t i = 0; i < made; i++) {
        node_semver_version_free(pointer(found[i].lower.version)), node_semver_version_free(pointer(found[i].upper.version));
    }
}

static void key_intervals(void) {
    const struct handle *it = a_range();
    say_number(below(2) == 0 ? node_semver_range_intervals(it, &intervals) : node_semver_range_intervals_with_prereleases(it, &intervals));
    if (intervals.at == 0) {
        return;
    }
    size_t count = node_semver_intervals_count(&intervals);
    for (size_t i = 0; i <= count; i++) {
        say_room(node_semver_interval_lower(&intervals, i, room, sizeof room));
        say_room(node_semver_interval_upper(&intervals, i, room, sizeof room));
        say_number(node_semver_interval_is_of_prereleases(&intervals, i));
    }
    node_semver_intervals_free(pointer(intervals));
    intervals.at = 0;
}

static const struct call {
    const char *name;
    void (*make)(void);
    bool takes_text;
} calls[] = {
    {"parse_version", parse_version, true}, {"parse_strict", parse_strict, true}, {"parse_range", parse_range, true},
    {"parse_npm", parse_npm, true}, {"satisfies_text", satisfies_text, true}, {"satisfies_strict", satisfies_strict, true},
    {"contains_strict", contains_strict, true}, {"coerce", coerce, true}, {"coerce_with_prerelease", coerce_with_prerelease, true},
    {"bump", bump, false}, {"order", order, false}, {"parts", parts, false}, {"short_rooms", short_rooms, false}, {"key", key, false},
    {"key_back", key_back, false},
    {"admits", admits, false}, {"both_ranges", both_ranges, false}, {"intersect", intersect, false}, {"difference", difference, false},
    {"unite", unite, false}, {"min_version", min_version, false}, {"min_version_with_prereleases", min_version_with_prereleases, false},
    {"least_beyond", least_beyond, false}, {"least_beyond_with_prereleases", least_beyond_with_prereleases, false},
    {"least_common", least_common, false}, {"least_common_with_prereleases", least_common_with_prereleases, false},
    {"best", best, false}, {"sets", sets, false}, {"key_intervals", key_intervals, false},
};
#define CALLS (sizeof calls / sizeof *calls)

static void let_go(void) {
    node_semver_version_free(pointer(version)), node_semver_range_free(pointer(range));
    version.at = range.at = 0;
}

/* A range of many sets is not kept: two of them may make thousands. */
#define MOST_SETS 12u

/* What a call made takes the place of one that is kept. */
static void keep_made(void) {
    struct handle old;
    if (version.at != 0) {
        uint32_t place = below(KEPT);
        old = versions[place], versions[place] = version, version = old;
    }
    if (range.at != 0 && node_semver_range_set_count(&range) <= MOST_SETS) {
        uint32_t place = below(KEPT);
        old = ranges[place], ranges[place] = range, range = old;
    }
    let_go();
}

/* Makes the call with each of its requests for memory refused in turn, and then with none refused. */
static void make(const struct call *call) {
    uint64_t start = seed;
    for (uint32_t refused = 1; refused != 0;) {
        int32_t before = heap_blocks();
        seed = start;
        say(call->name);
        heap_refuse(refused);
        call->make();
        bool is_refused = heap_requests() >= refused;
        heap_refuse(0);
        if (!is_refused) {
            refused = 0;
            keep_made();
        } else {
            refused++;
            let_go();
            say(before == heap_blocks() ? "" : " KEPT A BLOCK");
        }
        say("\n");
    }
}

/* ---- the texts of rows ---- */

struct row {
    const char *call;
    const char *kinds;
    const char *texts[2];
    const char *answer;
};

#include "../../c/tests/rows.h"

static void set_text(struct text *text, const char *bytes) {
    text->length = 0;
    add(text, bytes == NULL ? "" : bytes);
}

/* Each call that takes texts, with the texts of each row, in both places. */
static void make_rows(void) {
    for (size_t i = 0; i < sizeof rows / sizeof *rows; i++) {
        for (int first = 0; first < 2; first++) {
            set_text(&one, rows[i].texts[first]), set_text(&other, rows[i].texts[1 - first]);
            for (size_t j = 0; j < CALLS; j++) {
                make(&calls[j]);
            }
        }
    }
}

static void make_calls(uint32_t count) {
    for (uint32_t i = 0; i < count; i++) {
        const struct call *call = &calls[below(CALLS)];
        if (call->takes_text) {
            one.length = other.length = 0;
            add_version(&one), add_range(&other);
            if (below(8) == 0) {
                one = other;
            }
        }
        make(call);
    }
}

void run(uint32_t count) {
    seed = 1;
    for (int i = 0; i < KEPT; i++) {
        version.at = range.at = 0;
        set_text(&one, "1.2.3-rc.1"), set_text(&other, "^1.2.3 || >=3");
        parse_version(), parse_range();
        versions[i] = version, ranges[i] = range;
    }
    version.at = range.at = 0;
    make_rows();
    make_calls(count);
    for (int i = 0; i < KEPT; i++) {
        node_semver_version_free(pointer(versions[i])), node_semver_range_free(pointer(ranges[i]));
    }
    say("blocks that are left:"), say_number((uint64_t)(uint32_t)heap_blocks()), say("\n");
    flush();
}
