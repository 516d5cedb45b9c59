/* SPDX-License-Identifier: Apache-2.0 */
/*
 * Makes the calls of node_semver.h with arbitrary bytes as texts, in arbitrary order and with a request for memory refused,
 * and looks for a sentence of the header that does not hold, for an access to memory that no text and no result has, and for
 * a block that is not freed.
 *
 *     v s c    a place of versions, and a text: it is parsed, or parsed strictly; of `c` the version in it is taken
 *     r n      a place of ranges, and a text: it is parsed, or parsed as npm does; of `n` the options stand before the text
 *     b        two places, a bump, a base and an identifier: the second version becomes the first after the bump
 *     p q      a place, or two: what must hold of a version, or of two
 *     a        a place of ranges, and a text: whether its version satisfies the range
 *     t        two texts with a tab between: whether the version of the second satisfies the range of the first
 *     R L      a place, or two: what must hold of a range, and the least versions of two
 *     o        an operator and three places: the third range becomes that of the first two
 *     m        a place: the greatest and the least of the held versions that satisfy a range
 *     z        sets of the ends that the line says are made a range
 *     f        a place: its version and its range are freed
 *     x        a number: so many requests from here the next one is refused
 */
#include "ranges.h"

static const node_semver_fault UNTOLD = {99, 98, 97};

/* The fault of a text that is refused, and of no other. */
static void check_fault(node_semver_status status, const node_semver_fault *fault, struct placed text, unsigned kinds) {
    if (status == NODE_SEMVER_REFUSED) {
        see('F', fault->kind);
        expect(fault->kind < 32 && (kinds & ONE_OF(fault->kind)) != 0, "the kind of a fault is one of the header's");
        expect(fault->offset <= text.length, "a fault lies in the text");
        expect(fault->number == 0 || fault->kind == NODE_SEMVER_MAX_INT, "no other fault has a number");
    } else if (status != NODE_SEMVER_OUT_OF_MEMORY) {
        expect(memcmp(fault, &UNTOLD, sizeof UNTOLD) == 0, "a fault is written only if a text is refused");
    }
    expect(status == NODE_SEMVER_OUT_OF_MEMORY || (status == NODE_SEMVER_NOT_UTF8) == !is_utf8(text),
           "a text is not UTF-8 exactly if the call says so");
}

#define READ (ONE_OF(NODE_SEMVER_REFUSED) | ONE_OF(NODE_SEMVER_NOT_UTF8))
#define VERSION_FAULTS                                                                                                 \
    (ONE_OF(NODE_SEMVER_MAX_LENGTH) | ONE_OF(NODE_SEMVER_PARSE_INT) | ONE_OF(NODE_SEMVER_MAX_INT)                      \
     | ONE_OF(NODE_SEMVER_CONTEXT) | ONE_OF(NODE_SEMVER_OTHER))
#define RANGE_FAULTS ONE_OF(NODE_SEMVER_NO_VALID_RANGES)

/* The place stands in the line as a character, of which one bit says at which end of a room the text is. */
static struct placed next_text(struct line *line, unsigned room, unsigned place) {
    return text_of(*line, room, (place & PLACES) == 0);
}

static void parse_version(struct line *line, bool is_strict) {
    unsigned place = next_character(line);
    struct placed text = next_text(line, TEXT, place);
    node_semver_version version = NODE_SEMVER_EMPTY, unread = NODE_SEMVER_EMPTY;
    node_semver_fault fault = UNTOLD;
    node_semver_status status = is_strict ? node_semver_version_parse_strict(text.bytes, text.length, &version, &fault)
                                          : node_semver_version_parse(text.bytes, text.length, &version, &fault);
    expect(is_done(status, READ) == is_full(&version), "a handle is full exactly if a version is parsed");
    check_fault(status, &fault, text, VERSION_FAULTS);
    keep_version(place % PLACES, version);
    node_semver_status again = is_strict ? node_semver_version_parse_strict(text.bytes, text.length, &unread, NULL)
                                         : node_semver_version_parse(text.bytes, text.length, &unread, NULL);
    expect(again == status || was_refused(), "the status is the same where no fault is read");
    node_semver_version_free(unread);
}

static void coerce(struct line *line) {
    unsigned place = next_character(line), options = next_choice(line, 4);
    struct placed text = next_text(line, TEXT, place);
    node_semver_version version = NODE_SEMVER_EMPTY;
    node_semver_status status = (options & 1) != 0
        ? node_semver_version_coerce_with_prerelease(text.bytes, text.length, (options & 2) != 0, &version)
        : node_semver_version_coerce(text.bytes, text.length, (options & 2) != 0, &version);
    bool is_found = is_done(status, ONE_OF(NODE_SEMVER_NONE) | ONE_OF(NODE_SEMVER_NOT_UTF8));
    expect(is_found == is_full(&version), "a handle is full exactly if a version is found");
    expect(status == NODE_SEMVER_OUT_OF_MEMORY || (status == NODE_SEMVER_NOT_UTF8) == !is_utf8(text), "UTF-8 is known");
    if (is_found && (options & 1) == 0) {
        expect(!node_semver_version_is_prerelease(&version) && node_semver_version_build_count(&version) == 0,
               "a version that is found has three numbers alone");
    }
    keep_version(place % PLACES, version);
}

static node_semver_status parse_as(unsigned options, struct placed text, node_semver_range *range, node_semver_fault *fault) {
    if (options == 4) {
        return node_semver_range_parse(text.bytes, text.length, range, fault);
    }
    return node_semver_range_parse_npm(text.bytes, text.length, (options & 1) != 0, (options & 2) != 0, range, fault);
}

static void parse_range(struct line *line, bool is_npm) {
    unsigned place = next_character(line), options = is_npm ? next_choice(line, 4) : 4;
    struct placed text = next_text(line, TEXT, place);
    node_semver_range range = NODE_SEMVER_EMPTY, unread = NODE_SEMVER_EMPTY;
    node_semver_fault fault = UNTOLD;
    node_semver_status status = parse_as(options, text, &range, &fault);
    expect(is_done(status, READ) == (range.at != NULL), "a handle is full exactly if a range is parsed");
    check_fault(status, &fault, text, RANGE_FAULTS);
    keep_range(place % PLACES, range);
    expect(parse_as(options, text, &unread, NULL) == status || was_refused(), "the status is the same where no fault is read");
    node_semver_range_free(unread);
}

/* The bumps that are there, and one more; the bases, and one more. */
static void bump(struct line *line) {
    const node_semver_version *version = &held.versions[next_choice(line, PLACES)];
    unsigned place = next_character(line), number = next_choice(line, 10), base = next_choice(line, 4);
    struct placed identifier = next_text(line, TEXT, place);
    node_semver_version answer = NODE_SEMVER_EMPTY;
    if (!is_full(version)) {
        return;
    }
    bool is_null = identifier.length == 0 && (place & PLACES) != 0;
    node_semver_status status =
        node_semver_version_bump(version, number, is_null ? NULL : identifier.bytes, identifier.length, base, &answer);
    see('B', status);
    bool is_made = is_done(status, ONE_OF(NODE_SEMVER_NOT_UTF8) | 0x3e0);
    expect(is_made == is_full(&answer), "a handle is full exactly if a version is made");
    expect((number >= 1 && number <= 8 && base <= 2) || !is_made, "a bump or a base that is not there makes no version");
    expect(!is_made || node_semver_version_build_count(&answer) == 0, "a version after a bump has no build");
    keep_version(place % PLACES, answer);
}

/* Whether the version of a text is in a range, beside the same version when it is parsed. */
static void ask(struct line *line) {
    unsigned place = next_character(line);
    const node_semver_range *range = &held.ranges[place % PLACES];
    struct placed text = next_text(line, TEXT, place);
    node_semver_version version = NODE_SEMVER_EMPTY;
    bool satisfies = true, lies = true;
    if (range->at == NULL) {
        return;
    }
    node_semver_status status = node_semver_satisfies_strict(range, text.bytes, text.length, &satisfies);
    expect(node_semver_contains_strict(range, text.bytes, text.length, &lies) == status, "both questions have one status");
    bool is_read = is_done(status, READ);
    expect(is_read || (satisfies && lies), "nothing is written if there is no version");
    node_semver_status parsed = node_semver_version_parse_strict(text.bytes, text.length, &version, NULL);
    expect(parsed == status || was_refused(), "a version is read as it is parsed");
    if (parsed == NODE_SEMVER_OK) {
        expect(node_semver_satisfies(range, &version) == satisfies && node_semver_range_contains(range, &version) == lies,
               "a version is in the range exactly if its text is");
    }
    node_semver_version_free(version);
}

static void ask_texts(struct line *line) {
    struct placed range = text_of(next_part(line, '\t'), OTHER_TEXT, true), version = text_of(*line, TEXT, true);
    node_semver_range parsed_range = NODE_SEMVER_EMPTY;
    node_semver_version parsed = NODE_SEMVER_EMPTY;
    node_semver_fault fault = UNTOLD;
    bool answer = true;
    node_semver_status status =
        node_semver_satisfies_text(range.bytes, range.length, version.bytes, version.length, &answer, &fault);
    bool is_read = is_done(status, READ), is_text = is_utf8(range) && is_utf8(version);
    expect(is_read || answer, "nothing is written if a text is refused");
    expect(status == NODE_SEMVER_OUT_OF_MEMORY || (status == NODE_SEMVER_NOT_UTF8) == !is_text, "UTF-8 is known");
    node_semver_status range_status = node_semver_range_parse(range.bytes, range.length, &parsed_range, NULL);
    node_semver_status version_status = node_semver_version_parse(version.bytes, version.length, &parsed, NULL);
    if (!was_refused() && is_text) {
        expect(is_read == (range_status == NODE_SEMVER_OK && version_status == NODE_SEMVER_OK), "both texts are read");
        expect(!is_read || answer == node_semver_satisfies(&parsed_range, &parsed), "the answer is that of the values");
    }
    node_semver_range_free(parsed_range);
    node_semver_version_free(parsed);
}

/* The most sets that a range is made of here: unions of unions would have no end. */
enum { FEW = 64 };

static void combine(struct line *line) {
    static algebra *const calls[] = {node_semver_range_intersect, node_semver_range_difference, node_semver_range_union};
    static truth *const truths[] = {both, first_alone, either};
    unsigned operator = next_choice(line, 3);
    const node_semver_range *one = &held.ranges[next_choice(line, PLACES)], *other = &held.ranges[next_choice(line, PLACES)];
    if (one->at != NULL && other->at != NULL && node_semver_range_set_count(one) <= FEW
        && node_semver_range_set_count(other) <= FEW) {
        keep_range(next_choice(line, PLACES), combined(calls[operator], truths[operator], one, other));
    }
}

static void find(struct line *line) {
    const node_semver_range *one = &held.ranges[next_choice(line, PLACES)], *other = &held.ranges[next_choice(line, PLACES)];
    if (one->at != NULL && other->at != NULL && node_semver_range_set_count(one) <= FEW
        && node_semver_range_set_count(other) <= FEW) {
        check_searches(one, other);
    }
}

typedef bool choice(const node_semver_version *versions, size_t count, const node_semver_range *range, size_t *place);

/* The chosen version is in the range, and no other one in it is better, nor as good and before it. */
static void check_choice(choice *choose, membership *is_in, bool is_greatest, const node_semver_range *range,
                         const node_semver_version *versions, size_t count) {
    size_t place = SIZE_MAX;
    bool is_found = choose(versions, count, range, &place);
    expect(!is_found || (place < count && is_in(range, &versions[place])), "the chosen version is in the range");
    for (size_t i = 0; i < count; i++) {
        if (is_in(range, &versions[i])) {
            expect(is_found, "a version is chosen if one is in the range");
            int32_t order = node_semver_version_compare(&versions[i], &versions[place]);
            expect((is_greatest ? order <= 0 : order >= 0) && (order != 0 || place <= i), "the chosen version is the best");
        }
    }
}

static void choose(struct line *line) {
    const node_semver_range *range = &held.ranges[next_choice(line, PLACES)];
    size_t count = 0;
    for (unsigned i = 0; i < PLACES; i++) {
        count += is_full(&held.versions[i]);
    }
    node_semver_version *versions = (node_semver_version *)place_in(OTHER_TEXT, count * sizeof *versions, true);
    for (unsigned i = 0, at = 0; i < PLACES; i++) {
        if (is_full(&held.versions[i])) {
            versions[at++] = held.versions[i];
        }
    }
    if (range->at != NULL) {
        check_choice(node_semver_max_satisfying, node_semver_satisfies, true, range, versions, count);
        check_choice(node_semver_min_satisfying, node_semver_satisfies, false, range, versions, count);
        check_choice(node_semver_max_satisfying_with_prereleases, node_semver_range_contains, true, range, versions, count);
        check_choice(node_semver_min_satisfying_with_prereleases, node_semver_range_contains, false, range, versions, count);
    }
}

static node_semver_cut next_cut(struct line *line) {
    node_semver_cut cut = {next_choice(line, 6), NODE_SEMVER_EMPTY};
    unsigned place = next_choice(line, PLACES + 1);
    if (place < PLACES) {
        cut.version = held.versions[place];
    }
    return cut;
}

static void make_sets(struct line *line) {
    unsigned place = next_choice(line, PLACES);
    size_t count = line->length / 4;
    node_semver_set *sets = (node_semver_set *)place_in(OTHER_TEXT, count * sizeof *sets, true);
    node_semver_range range = NODE_SEMVER_EMPTY;
    for (size_t i = 0; i < count; i++) {
        sets[i].lower = next_cut(line);
        sets[i].upper = next_cut(line);
    }
    bool is_made = is_done(node_semver_range_from_sets(sets, count, &range), ONE_OF(NODE_SEMVER_NONE));
    expect(is_made == (range.at != NULL) && (!is_made || node_semver_range_set_count(&range) == count), "each set is one");
    keep_range(place, range);
}

static void look_at_version(struct line *line) {
    const node_semver_version *version = &held.versions[next_choice(line, PLACES)];
    if (is_full(version)) {
        check_version(version);
    }
}

static void look_at_two(struct line *line) {
    const node_semver_version *one = &held.versions[next_choice(line, PLACES)];
    const node_semver_version *other = &held.versions[next_choice(line, PLACES)];
    if (is_full(one) && is_full(other)) {
        check_two(one, other);
    }
}

static void look_at_range(struct line *line) {
    const node_semver_range *range = &held.ranges[next_choice(line, PLACES)];
    if (range->at != NULL && node_semver_range_set_count(range) <= 4 * FEW) {
        check_range(range);
    }
}

/* An empty handle may be freed again. */
static void let_go(unsigned place) {
    for (int i = 0; i < 2; i++) {
        keep_version(place, (node_semver_version)NODE_SEMVER_EMPTY);
        keep_range(place, (node_semver_range)NODE_SEMVER_EMPTY);
    }
}

static void run(struct line *line) {
    switch (next_character(line)) {
    case 'v': parse_version(line, false); break;
    case 's': parse_version(line, true); break;
    case 'c': coerce(line); break;
    case 'r': parse_range(line, false); break;
    case 'n': parse_range(line, true); break;
    case 'b': bump(line); break;
    case 'p': look_at_version(line); break;
    case 'q': look_at_two(line); break;
    case 'a': ask(line); break;
    case 't': ask_texts(line); break;
    case 'R': look_at_range(line); break;
    case 'L': find(line); break;
    case 'o': combine(line); break;
    case 'm': choose(line); break;
    case 'z': make_sets(line); break;
    case 'f': let_go(next_choice(line, PLACES)); break;
    case 'x': refused = requests + next_character(line) + 1; break;
    }
}

enum { MOST_COMMANDS = 48 };

int LLVMFuzzerTestOneInput(const uint8_t *bytes, size_t length);
int LLVMFuzzerTestOneInput(const uint8_t *bytes, size_t length) {
    struct line input = {bytes, length}, line;
    long before = blocks;
    refused = 0;
    for (int i = 0; i < MOST_COMMANDS && next_line(&input, &line); i++) {
        held.requests = requests;
        run(&line);
    }
    refused = 0;
    for (unsigned i = 0; i < PLACES; i++) {
        let_go(i);
    }
    expect(blocks == before, "each block is freed");
    return 0;
}
