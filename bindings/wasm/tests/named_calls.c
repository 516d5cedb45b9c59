/* SPDX-License-Identifier: Apache-2.0 */
/* Makes calls of npm_call, of the rows of the tests for C and then of made texts, and writes what each gave. */
#include "documents.h"

/* As the proved code has it: a `size_t` in memory takes 8 bytes. */
uint32_t npm_call(const char *, size_t, const char *, size_t, char *, size_t, uint64_t *);

struct row {
    struct string name, text;
};

#define TEXT(text) { text, sizeof text - 1 }
#define ROW(name, text, status, answer) {TEXT(name), TEXT(text)},
#include "../../c/tests/calls/rows.h"
#undef TEXT

static struct text name, text;
static size_t size;

/* ---- packuments of `pick` */

static void add_manifest(struct text *text) {
    static const char *const manifests[] = {"{}", "{}", "{}", "{\"deprecated\":true}", "{\"deprecated\":\"old\"}", "{\"deprecated\":false}",
        "0", "null"};
    if (below(4) > 0) {
        add(text, ONE_OF(manifests));
        return;
    }
    add(text, "{\"engines\":{\"node\":"), add_string(text, add_wish);
    if (below(3) == 0) {
        add(text, ",\"npm\":"), add_string(text, add_wish);
    }
    add(text, "}}");
}

static void add_versions(struct text *text, uint32_t most) {
    add(text, "\"versions\":{");
    for (uint32_t n = below(most); n > 0; n--) {
        add_string(text, add_key), add(text, ":"), add_manifest(text), add(text, n > 1 ? "," : "");
    }
    add(text, "}");
}

static void add_document(struct text *text) {
    add(text, "{\"name\":\"a\",\"dist-tags\":{\"latest\":"), add_string(text, add_key);
    add(text, ",\"next\":"), add_string(text, add_key), add(text, "},");
    add_versions(text, 12);
    if (below(2) == 0) {
        add(text, ",\"time\":{");
        for (uint32_t n = below(8); n > 0; n--) {
            add_string(text, add_key), add(text, ":"), add_string(text, add_time), add(text, n > 1 ? "," : "");
        }
        add(text, "}");
    }
    if (below(4) == 0) {
        add(text, ",\"stagedVersions\":{"), add_versions(text, 4), add(text, "}");
    }
    if (below(4) == 0) {
        add(text, ",\"policyRestrictions\":{"), add_versions(text, 4), add(text, "}");
    }
    add(text, "}");
}

/* ---- documents of the others */

static const char *const names[] = {"a", "b", "c"};
#define NAMES (sizeof names / sizeof *names)

/* One time in n the object has one more member. */
static void add_member(struct text *text, uint32_t n, const char *name, void (*add_value)(struct text *)) {
    if (below(n) == 0) {
        add(text, ",\""), add(text, name), add(text, "\":"), add_value(text);
    }
}

/* An object that has a member for some of the names. */
static void add_by_names(struct text *text, const char *before_name, uint32_t n, void (*add_value)(struct text *)) {
    const char *between = "\"";
    add(text, "{");
    for (size_t i = 0; i < NAMES; i++) {
        if (below(n) == 0) {
            add(text, between), add(text, before_name), add(text, names[i]), add(text, "\":"), add_value(text);
            between = ",\"";
        }
    }
    add(text, "}");
}

/* Half of the specs admit most versions, so that there is something to select. */
static void add_spec(struct text *text) {
    static const char *const wide[] = {"\"*\"", "\">=1\"", "\"<3\"", "\"1 || 2 || 3\"", "\"\""};
    static const char *const others[] = {"\"npm:b@^1\"", "\"npm:gone@1\"", "\"file:a\"", "\"git+https://a\"", "\"next\"", "7"};
    if (below(2) == 0) {
        add(text, ONE_OF(wide));
    } else if (below(6) == 0) {
        add(text, ONE_OF(others));
    } else {
        add_string(text, add_wish);
    }
}

static void add_specs(struct text *text) {
    add_by_names(text, "", 2, add_spec);
}

static void add_optional_peers(struct text *text) {
    add(text, "{\""), add(text, ONE_OF(names)), add(text, "\":{\"optional\":true}}");
}

static void add_engines(struct text *text) {
    add(text, "{\"node\":"), add_string(text, add_wish), add(text, "}");
}

static void add_deprecated(struct text *text) {
    static const char *const texts[] = {"\"old\"", "true", "false", "\"\""};
    add(text, ONE_OF(texts));
}

static void add_dist(struct text *text) {
    add(text, "{\"tarball\":\"https://r/a.tgz\",\"integrity\":\"sha512-a==\"}");
}

static void add_published(struct text *text) {
    if (below(20) == 0) {
        add(text, "null");
        return;
    }
    add(text, "{\"license\":\"MIT\""), add_member(text, 2, "dist", add_dist);
    add_member(text, 3, "dependencies", add_specs), add_member(text, 3, "peerDependencies", add_specs);
    add_member(text, 6, "peerDependenciesMeta", add_optional_peers), add_member(text, 6, "optionalDependencies", add_specs);
    add_member(text, 6, "engines", add_engines), add_member(text, 10, "deprecated", add_deprecated);
    add(text, "}");
}

/* An object of versions. */
static void add_some_versions(struct text *text, void (*add_value)(struct text *)) {
    add(text, "{");
    for (uint32_t n = below(4); n > 0; n--) {
        add_string(text, add_key), add(text, ":"), add_value(text), add(text, n > 1 ? "," : "");
    }
    add(text, "}");
}

static void add_publications(struct text *text) {
    add_some_versions(text, add_published);
}

static void add_any_time(struct text *text) {
    add_string(text, add_time);
}

static void add_times(struct text *text) {
    add_some_versions(text, add_any_time);
}

static void add_resolved(struct text *text) {
    add(text, "{\"dist-tags\":{\"latest\":"), add_string(text, add_key), add(text, ",\"next\":"), add_string(text, add_key), add(text, "}");
    add_member(text, 20, "versions", add_deprecated), add_member(text, 1, "versions", add_publications);
    add_member(text, 4, "time", add_times), add(text, "}");
}

static void add_root(struct text *text) {
    add(text, "{\"name\":\"root\""), add_member(text, 1, "dependencies", add_specs);
    add_member(text, 4, "devDependencies", add_specs), add_member(text, 4, "optionalDependencies", add_specs);
    add_member(text, 4, "peerDependencies", add_specs), add_member(text, 4, "overrides", add_specs), add(text, "}");
}

static void add_installed(struct text *text) {
    add(text, "{\"version\":"), add_string(text, add_key), add_member(text, 4, "dependencies", add_specs), add(text, "}");
}

static void add_lock(struct text *text) {
    static const char *const numbers[] = {"3", "3", "3", "2", "1"};
    add(text, "{\"lockfileVersion\":"), add(text, ONE_OF(numbers)), add(text, ",\"packages\":");
    add_by_names(text, "node_modules/", 2, add_installed), add(text, "}");
}

/* ---- members of a call */

static void add_tag(struct text *text) {
    static const char *const tags[] = {"next", "latest", "none"};
    add(text, ONE_OF(tags));
}

static void add_tag_string(struct text *text) {
    add_string(text, add_tag);
}

static void add_wish_string(struct text *text) {
    add_string(text, add_wish);
}

static void add_time_string(struct text *text) {
    add_string(text, add_time);
}

static void add_key_string(struct text *text) {
    add_string(text, add_key);
}

static void add_true(struct text *text) {
    add(text, below(20) == 0 ? "null" : "true");
}

static void add_omit(struct text *text) {
    static const char *const groups[] = {"[]", "[\"dev\"]", "[\"optional\"]", "[\"dev\",\"peer\"]"};
    add(text, ONE_OF(groups));
}

static void add_steps(struct text *text) {
    static const char *const steps[] = {"0", "1", "3", "9", "1000"};
    add(text, ONE_OF(steps));
}

static void add_pick_options(struct text *text) {
    add_member(text, 4, "tag", add_tag_string), add_member(text, 4, "avoid", add_wish_string);
    add_member(text, 4, "before", add_time_string), add_member(text, 3, "node", add_key_string), add_member(text, 6, "npm", add_key_string);
    add_member(text, 3, "avoid_strict", add_true), add_member(text, 3, "include_staged", add_true);
}

static void add_packuments(struct text *text) {
    add_by_names(text, "", below(8) == 0 ? 2 : 1, add_resolved);
}

static void add_roots(struct text *text) {
    add(text, "["), add_root(text), add(text, "]");
}

/* ---- calls */

static void named(const char *of) {
    clear(&name), add(&name, of);
    clear(&text), add(&text, "{\"tag\":null");
}

static void make_pick(void) {
    named("pick");
    add_member(&text, 1, "packument", add_document), add_member(&text, 1, "wanted", add_wish_string), add_pick_options(&text);
}

static void make_outdated(void) {
    named(below(2) == 0 ? "outdated" : "keep");
    add_member(&text, 1, "packuments", add_packuments), add_member(&text, 1, "lock", add_lock), add_member(&text, 2, "all", add_true);
    add_member(&text, 4, "manifests", add_roots), add_pick_options(&text);
}

static void make_resolve(void) {
    named("resolve");
    add_member(&text, 1, "manifest", add_root), add_member(&text, 1, "packuments", add_packuments), add_member(&text, 4, "lock", add_lock);
    add_member(&text, 6, "before", add_time_string), add_member(&text, 6, "node", add_key_string), add_member(&text, 8, "omit", add_omit);
    add_member(&text, 2, "flat", add_true), add_member(&text, 4, "lowest", add_true), add_member(&text, 6, "lockfile", add_true);
    add(&text, ",\"steps\":"), add_steps(&text);
}

static void make_check(void) {
    named("check");
    add_member(&text, 1, "lock", add_lock), add_member(&text, 3, "manifest", add_root), add_member(&text, 6, "omit", add_omit);
    add_member(&text, 4, "strict", add_true), add_member(&text, 4, "unchecked", add_true), add_member(&text, 6, "node", add_key_string);
}

static void make_call(void) {
    uint64_t length = 77;
    say_number(npm_call(name.bytes, name.length, text.bytes, text.length, room, size, &length));
    say_number(length);
    if (length <= size) {
        say_bytes(room, (size_t)length);
    }
}

static void make_rows(void) {
    for (size_t i = 0; i < sizeof ROWS / sizeof *ROWS; i++) {
        set(&name, ROWS[i].name), set(&text, ROWS[i].text);
        size = sizeof room;
        make("row", make_call);
    }
}

void run(uint32_t count) {
    static void (*const makers[])(void) = {make_pick, make_pick, make_resolve, make_outdated, make_check};
    seed = 2;
    make_rows();
    for (uint32_t i = 0; i < count; i++) {
        ONE_OF(makers)();
        add(&text, "}");
        if (below(10) == 0) {
            spoil(&text);
        }
        size = below(8) == 0 ? below(100) : sizeof room;
        make("call", make_call);
    }
    end();
}
