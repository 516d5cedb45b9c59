/* SPDX-License-Identifier: Apache-2.0 */
/*
 * The rows of npm_calls.h: the name and the text of a call, its status, and the answer or a part of it. Whoever includes this says what a
 * `struct row` has, and which words of a ROW it takes.
 */
#define DOCUMENT                                                                                                       \
    "{\"dist-tags\":{\"latest\":\"1.2.0\",\"next\":\"2.0.0\"},\"time\":{\"1.3.0\":\"2021-01-01T00:00:00.000Z\","       \
    "\"2.0.0\":\"2022-01-01T00:00:00.000Z\"},\"versions\":{\"1.2.0\":{},\"1.3.0\":{},\"2.0.0\":{\"engines\":"          \
    "{\"node\":\">=18\"},\"deprecated\":\"it is old\"},\"2.1.0\":{\"engines\":{\"node\":\">=20\",\"npm\":\">=9\"}}}}"
#define STAGED "{\"stagedVersions\":{\"versions\":{\"1.0.0\":{}}}}"
#define RESTRICTED "{\"policyRestrictions\":{\"versions\":{\"1.0.0\":{}}}}"
#define ONE "{\"versions\":{\"1.0.0\":{}}}"

/* Two majors of react; react-hot 5 goes with 18 and 4 with 17. */
#define DOCUMENTS                                                                                                      \
    "{\"react\":{\"dist-tags\":{\"latest\":\"18.2.0\",\"old\":\"17.0.2\"},\"time\":{\"17.0.2\":"                       \
    "\"2021-01-01T00:00:00.000Z\",\"18.2.0\":\"2022-01-01T00:00:00.000Z\"},\"versions\":{\"17.0.2\":{},"               \
    "\"18.2.0\":{}}},\"react-hot\":{\"dist-tags\":{\"latest\":\"4.0.0\"},\"versions\":{\"4.0.0\":{"                    \
    "\"peerDependencies\":{\"react\":\"^17\"}},\"5.0.0\":{\"peerDependencies\":{\"react\":\"^18\"}}}}}"
/* Each asks for the other, one asks for itself, and one has no versions. */
#define ODD                                                                                                            \
    "{\"a\":{\"versions\":{\"1.0.0\":{\"peerDependencies\":{\"b\":\"*\"}}}},\"b\":{\"versions\":{\"2.0.0\":{"          \
    "\"peerDependencies\":{\"a\":\"*\"}}}},\"self\":{\"versions\":{\"1.0.0\":{\"peerDependencies\":{\"self\":\"2\"}},"  \
    "\"2.0.0\":{}}},\"none\":{\"versions\":{}},\"seven\":7,\"\\u0001\":{\"versions\":{\"1.0.0\":{}}}}"

#define ASKS(text) "{\"dependencies\":{" text "}}"
#define OVERRIDDEN(text) "{\"dependencies\":{\"react-hot\":\"*\"},\"overrides\":{" text "}}"
#define PACKAGE(name, version) "{\"name\":\"" name "\",\"package\":\"" name "\",\"version\":\"" version "\"}"
#define SELECTED(packages) "{\"outcome\":\"selected\",\"packages\":[" packages "],\"left_out\":["
#define UNREAD(names) "{\"outcome\":\"unread\",\"overrides\":[" names "],\"left_out\":[],\"missing\":[],\"refused\":[],\"unread\":[" names "]}"
#define CULPRIT(document, name, spec, would_fit)                                                                       \
    "{\"document\":" document ",\"name\":\"" name "\",\"needed\":true,\"spec\":\"" spec "\",\"would_fit\":" would_fit "}"
#define CULPRITS(culprits) "\"culprits\":[" culprits "]"

/* Versions with dependencies, an engine and a deprecated version. */
#define TREE                                                                                                           \
    "{\"a\":{\"dist-tags\":{\"latest\":\"1.1.0\"},\"versions\":{\"1.0.0\":{\"dependencies\":{\"b\":\"^1\"}},\"1.1.0\":{"    \
    "\"dependencies\":{\"b\":\"^1\"},\"engines\":{\"node\":\">=20\"}}}},\"b\":{\"versions\":{\"1.0.0\":{},\"1.1.0\":{},"          \
    "\"1.2.0\":{\"deprecated\":\"old\"}}},\"c\":{\"versions\":{\"1.0.0\":{\"dependencies\":{\"b\":\"2\"}}}}}"

#define LOCK(packages) "{\"lockfileVersion\":3,\"packages\":{" packages "}}"
#define LOCKED(name, version) "\"node_modules/" name "\":{\"version\":\"" version "\"}"

#define GROUPS                                                                                                         \
    "{\"devDependencies\":{\"react\":\"17\"},\"optionalDependencies\":{\"react-hot\":\"4\"},\"peerDependencies\":{"    \
    "\"gone\":\"*\"}}"
#define THREE                                                                                                          \
    "{\"devDependencies\":{\"react\":\"17\"},\"optionalDependencies\":{\"react\":\"18\"},\"dependencies\":{"           \
    "\"react\":\"9\"}}"

/* A lock file whose package asks for another, of an old version, and beside it a manifest and advisories. */
#define INSTALLED                                                                                                      \
    "{\"lockfileVersion\":3,\"packages\":{\"\":{\"dependencies\":{\"a\":\"^1\",\"b\":\"^2\"}},\"node_modules/a\":{\"version\":"  \
    "\"1.2.0\"},\"node_modules/b\":{\"version\":\"1.0.0\",\"dev\":true,\"engines\":{\"node\":\">=20\"}}}}"
#define OLD_INSTALLED "{\"lockfileVersion\":1,\"dependencies\":{\"a\":{\"version\":\"1.2.0\",\"requires\":{\"b\":\"1\"}}}}"
#define ADVISORIES                                                                                                     \
    "{\"a\":[{\"id\":7,\"severity\":\"high\",\"title\":\"t\",\"url\":\"u\",\"vulnerable_versions\":\"<1.3\"}]}"
#define EXCEPTION(more) "[{\"id\":\"7\",\"package\":\"a\",\"reason\":\"it is not called\"" more "}]"

/* Members. A string has the text of a document. */
#define STRING(text) "\"" text "\""
#define WANTED(text) ",\"wanted\":\"" text "\""
#define TAG(text) ",\"tag\":\"" text "\""
#define BEFORE(text) ",\"before\":\"" text "\""
#define AVOID(text) ",\"avoid\":\"" text "\""
#define AVOID_STRICT ",\"avoid_strict\":true"
#define WITH_STAGED ",\"include_staged\":true"
#define NODE(text) ",\"node\":\"" text "\""
#define NPM(text) ",\"npm\":\"" text "\""
#define STEPS(count) ",\"steps\":" count
#define OMIT(groups) ",\"omit\":[" groups "]"
#define BY_LOCK(lock) ",\"lock\":" lock
#define FLAT ",\"flat\":true"
#define LOWEST ",\"lowest\":true"
#define AS_LOCK ",\"lockfile\":true"
#define MEMBER(name, value) ",\"" name "\":" value

/* Answers. */
#define PICKED(version, avoided, outside, major)                                                                       \
    "{\"avoided\":" avoided ",\"major\":" major ",\"outcome\":\"picked\",\"outside\":" outside ",\"version\":\"" version "\"}"
#define NOTHING(outcome) "{\"outcome\":\"" outcome "\"}"
#define UNDECIDED "{\"outcome\":\"undecided\",\"left_out\":[],\"missing\":[],\"refused\":[],\"unread\":[]}"
#define NO_LOCK "{\"lockfile\":\"{\\n  \\\"lockfileVersion\\\": 3,\\n  \\\"packages\\\": {\\n    \\\"\\\": {}\\n  },"
#define A_LOCK "\\\"node_modules/b\\\": {\\n      \\\"version\\\": \\\"1.1.0\\\"\\n    }\\n  },\\n  \\\"requires\\\": true\\n}\\n\",\"outcome\":\"selected\","
#define NAMED(name) "\",\"name\":\"" name "\"}"
#define LOCK_FAULT(name) ",\"fault\":\"" name "\",\"line\":1,\"member\":[\"lock\""

#define PICK(packument, members, status, answer) ROW("pick", "{\"packument\":" packument members "}", status, answer)
#define RESOLVE(manifest, packuments, members, status, answer)                                                         \
    ROW("resolve", "{\"manifest\":" manifest ",\"packuments\":" packuments members "}", status, answer)
#define OUTDATED(lock, members, status, answer) ROW("outdated", "{\"packuments\":{\"a\":" DOCUMENT "},\"lock\":" lock members "}", status, answer)
#define KEEP(members, status, answer) ROW("keep", "{\"packuments\":{\"a\":" DOCUMENT "}" members "}", status, answer)
#define CHECK(lock, members, status, answer) ROW("check", "{\"lock\":" lock members "}", status, answer)
#define AUDIT(advisories, members, status, answer) ROW("audit", "{\"lock\":" INSTALLED ",\"advisories\":" advisories members "}", status, answer)

static const struct row ROWS[] = {
    /* pick */
    PICK(DOCUMENT, WANTED("^1"), NPM_OK, PICKED("1.2.0", "false", "false", "false"))
    PICK(DOCUMENT, WANTED("*"), NPM_OK, PICKED("1.2.0", "false", "false", "false"))
    PICK(DOCUMENT, WANTED(""), NPM_OK, PICKED("1.2.0", "false", "false", "false"))
    PICK(DOCUMENT, "", NPM_OK, PICKED("1.2.0", "false", "false", "false"))
    PICK(DOCUMENT, WANTED(">=1.3 <2"), NPM_OK, PICKED("1.3.0", "false", "false", "false"))
    PICK(DOCUMENT, WANTED("=v2.0.0+a"), NPM_OK, PICKED("2.0.0", "false", "false", "false"))
    PICK(DOCUMENT, WANTED("next"), NPM_OK, PICKED("2.0.0", "false", "false", "false"))
    PICK(DOCUMENT, WANTED("*") TAG("next"), NPM_OK, PICKED("2.1.0", "false", "false", "false"))
    PICK(DOCUMENT, WANTED("2") NODE("18.0.0"), NPM_OK, PICKED("2.0.0", "false", "false", "false"))
    PICK(DOCUMENT, WANTED("2") NODE("v20.0.0") NPM("8.0.0"), NPM_OK, PICKED("2.0.0", "false", "false", "false"))
    PICK(DOCUMENT, WANTED("2") NODE("20.0.0") NPM("9.1.0"), NPM_OK, PICKED("2.1.0", "false", "false", "false"))
    PICK(DOCUMENT, WANTED("^1") AVOID("1.2.0"), NPM_OK, PICKED("1.3.0", "false", "false", "false"))
    PICK(DOCUMENT, WANTED("^1") AVOID("1"), NPM_OK, PICKED("1.3.0", "true", "false", "false"))
    PICK(DOCUMENT, WANTED("1.2.0") AVOID("<1.3") AVOID_STRICT, NPM_OK, PICKED("1.3.0", "false", "true", "false"))
    PICK(DOCUMENT, WANTED("^1") AVOID("1") AVOID_STRICT, NPM_OK, PICKED("2.1.0", "false", "true", "true"))
    PICK(DOCUMENT, WANTED("^1") AVOID("*") AVOID_STRICT, NPM_OK, NOTHING("only_avoided"))
    PICK(DOCUMENT, WANTED(">=1.3") BEFORE("2021-06-01T00:00:00Z"), NPM_OK, PICKED("2.1.0", "false", "false", "false"))
    PICK(DOCUMENT, WANTED("next") BEFORE("2021-06-01T00:00:00+02:00"), NPM_OK, PICKED("1.2.0", "false", "false", "false"))
    PICK(DOCUMENT, WANTED("2.0.0") BEFORE("2021-06-01T00:00:00Z"), NPM_OK, NOTHING("no_version"))
    PICK(DOCUMENT, WANTED("9.0.0"), NPM_OK, NOTHING("no_version"))
    PICK(DOCUMENT, WANTED("^9"), NPM_OK, NOTHING("none_in_range"))
    PICK(DOCUMENT, WANTED("gone"), NPM_OK, NOTHING("no_tag"))
    PICK(DOCUMENT, WANTED("a b"), NPM_OK, NOTHING("invalid_wanted"))
    PICK(STAGED, WANTED("^1") WITH_STAGED, NPM_OK, PICKED("1.0.0", "false", "false", "false"))
    PICK(STAGED, WANTED("^1"), NPM_OK, NOTHING("no_versions"))
    PICK(RESTRICTED, WANTED("^1"), NPM_OK, NOTHING("forbidden"))
    PICK("{}", WANTED("*"), NPM_OK, NOTHING("no_versions"))
    PICK("7", WANTED("*"), NPM_OK, NOTHING("no_versions"))
    PICK(STRING("[[["), WANTED("*"), NPM_REFUSED, NAMED("no_json"))
    PICK(STRING(""), WANTED("*"), NPM_REFUSED, NAMED("no_json"))
    PICK("{}\0", WANTED("*"), NPM_REFUSED, NAMED("no_json"))
    PICK(ONE, WANTED("*") BEFORE("yesterday"), NPM_REFUSED, NAMED("no_time"))
    PICK(ONE, WANTED("*") NODE("20"), NPM_REFUSED, NAMED("no_version"))
    PICK(ONE, WANTED("*") NPM("next"), NPM_REFUSED, NAMED("no_version"))
    PICK("\"\\ud800\"", WANTED("*"), NPM_REFUSED, NAMED("no_json"))
    PICK(STRING("{\\\"versions\\\":{\\\"1.0.0\\\":{}}}"), WANTED("1") MEMBER("tag", "null"), NPM_OK, PICKED("1.0.0", "false", "false", "false"))
    PICK(ONE, MEMBER("wanted", "7"), NPM_REFUSED, NAMED("no_string"))
    PICK(ONE, MEMBER("tag", "true"), NPM_REFUSED, NAMED("no_string"))
    PICK(ONE, MEMBER("avoid", "[]"), NPM_REFUSED, NAMED("no_string"))
    PICK(ONE, MEMBER("before", "2024"), NPM_REFUSED, NAMED("no_string"))
    PICK(ONE, MEMBER("avoid_strict", "1"), NPM_REFUSED, NAMED("no_boolean"))
    PICK(ONE, MEMBER("include_staged", "\"true\""), NPM_REFUSED, NAMED("no_boolean"))
    PICK(ONE, MEMBER("node", "20"), NPM_REFUSED, NAMED("no_string"))
    PICK(ONE, MEMBER("npm", "{}"), NPM_REFUSED, NAMED("no_string"))
    PICK(ONE, MEMBER("tagg", "\"next\""), NPM_REFUSED,
         "{\"column\":40,\"line\":1,\"member\":[\"tagg\"],\"message\":\"the call has no such member\",\"name\":\"unknown_member\"}")
    PICK("null", "", NPM_REFUSED, NAMED("missing_member"))
    ROW("pick", "{\"wanted\":\"1\"}", NPM_REFUSED, NAMED("missing_member"))
    ROW("pick", "[]", NPM_REFUSED, NAMED("no_object"))
    ROW("pick", "", NPM_REFUSED, NAMED("no_json"))
    ROW("pick", "{\n  \"wanted\": ,", NPM_REFUSED, "{\"column\":13,\"line\":2,\"member\":[],")
    ROW("pick", "\xff", NPM_REFUSED, NAMED("no_utf8"))
    ROW("\xc3", "{}", NPM_REFUSED, NAMED("no_utf8"))
    ROW("Pick", "{}", NPM_REFUSED, "{\"column\":1,\"line\":1,\"member\":[],\"message\":\"there is no such call\",\"name\":\"no_call\"}")
    ROW("", "{}", NPM_REFUSED, NAMED("no_call"))

    /* outdated */
    OUTDATED(INSTALLED, "", NPM_OK, "{\"absent\":1,\"outdated\":[]}")
    OUTDATED(INSTALLED, TAG("next"), NPM_OK,
             "{\"absent\":1,\"outdated\":[{\"current\":\"1.2.0\",\"folder\":\"node_modules/a\",\"from\":\"\",\"latest\":\"2.1.0\",\"name\":\"a\","
             "\"wanted\":\"1.3.0\"}]}")
    OUTDATED(INSTALLED, MEMBER("all", "true") MEMBER("wanted", "\"1\""), NPM_REFUSED, NAMED("unknown_member"))
    OUTDATED(INSTALLED, MEMBER("all", "0"), NPM_REFUSED, NAMED("no_boolean"))
    OUTDATED("null", "", NPM_REFUSED, NAMED("missing_member"))
    OUTDATED(OLD_INSTALLED, "", NPM_REFUSED, ",\"fault\":\"version\",\"line\":1,\"member\":[\"lock\",\"lockfileVersion\"],\"message\":\"`lockfileVersion` is not 2 or 3\"")
    ROW("outdated", "{\"packuments\":[],\"lock\":{}}", NPM_REFUSED, NAMED("no_object"))

    /* keep */
    KEEP(MEMBER("manifests", "[{\"dependencies\":{\"a\":\">=1.3\",\"z\":\"./z\"}}]"), NPM_OK,
         "{\"absent\":[],\"complete\":true,\"kept\":[\"a@2.1.0\"],\"lacking\":[],\"notes\":[\"not from a registry: z (./z)\"]}")
    KEEP(MEMBER("lock", INSTALLED) MEMBER("all", "true"), NPM_OK,
         "{\"absent\":[\"b\"],\"complete\":false,\"kept\":[\"a@1.2.0\",\"a@1.3.0\",\"b@1.0.0\"],\"lacking\":[],\"notes\":[\"no document in the folder: b\"]}")
    KEEP("", NPM_OK, "{\"absent\":[],\"complete\":true,\"kept\":[],\"lacking\":[],\"notes\":[]}")
    KEEP(MEMBER("manifests", "{}"), NPM_REFUSED, NAMED("no_list"))
    KEEP(MEMBER("manifests", "[{},{\"dependencies\":{\"a\":7}}]"), NPM_REFUSED, "\"fault\":\"spec\",\"line\":1,\"member\":[\"manifests\",1],")
    KEEP(MEMBER("lock", "{\"lockfileVersion\":2}"), NPM_REFUSED, ",\"fault\":\"packages\",")
    KEEP(MEMBER("manifest", "{}"), NPM_REFUSED, NAMED("unknown_member"))

    /* resolve */
    RESOLVE(ASKS("\"react\":\"^18\",\"react-hot\":\"*\""), DOCUMENTS, "",
         NPM_OK, SELECTED(PACKAGE("react", "18.2.0") "," PACKAGE("react-hot", "5.0.0")))
    RESOLVE(ASKS("\"react-hot\":\"*\""), DOCUMENTS, "",
         NPM_OK, SELECTED(PACKAGE("react-hot", "4.0.0") "," PACKAGE("react", "17.0.2")))
    RESOLVE(ASKS("\"react\":\"^18\",\"react-hot\":\"^4\""), DOCUMENTS, "",
         NPM_OK, CULPRITS(CULPRIT("true", "react", "^18", "\"17.0.2\"") "," CULPRIT("true", "react-hot", "^4", "\"5.0.0\"")))
    RESOLVE(ASKS("\"react\":\"^20\",\"react-hot\":\"*\""), DOCUMENTS, "",
         NPM_OK, CULPRITS(CULPRIT("true", "react", "^20", "\"18.2.0\"")))
    RESOLVE(ASKS("\"react\":\"^20\",\"react-hot\":\"*\""), DOCUMENTS, LOWEST,
         NPM_OK, CULPRITS(CULPRIT("true", "react", "^20", "\"17.0.2\"")))
    RESOLVE(ASKS("\"old\":\"npm:react@^20\""), DOCUMENTS, "",
         NPM_OK, CULPRITS(CULPRIT("true", "old", "npm:react@^20", "\"18.2.0\"")))
    RESOLVE(ASKS("\"react\":\"^20\",\"react-hot\":\"^6\""), DOCUMENTS, "", NPM_OK, "\"would_fit\":null}],\"outcome\":\"none\"")
    RESOLVE(ASKS("\"gone\":\"\""), DOCUMENTS, "", NPM_OK, CULPRITS(CULPRIT("false", "gone", "*", "null")))
    RESOLVE(ASKS("\"react\":\"*\""), DOCUMENTS, TAG("old"), NPM_OK, SELECTED(PACKAGE("react", "17.0.2")))
    RESOLVE(ASKS("\"react\":\"*\""), DOCUMENTS, BEFORE("2021-06-01T00:00:00Z"), NPM_OK, SELECTED(PACKAGE("react", "17.0.2")))
    RESOLVE(ASKS("\"old\":\"npm:react@17\""), DOCUMENTS, "",
         NPM_OK, SELECTED("{\"name\":\"old\",\"package\":\"react\",\"version\":\"17.0.2\"}"))
    RESOLVE(OVERRIDDEN("\"react\":\"18.2.0\""), DOCUMENTS, "",
         NPM_OK, SELECTED(PACKAGE("react-hot", "4.0.0") "," PACKAGE("react", "18.2.0")))
    RESOLVE(OVERRIDDEN("\"react-hot\":\"5\""), DOCUMENTS, "",
         NPM_OK, SELECTED(PACKAGE("react-hot", "5.0.0") "," PACKAGE("react", "18.2.0")))
    RESOLVE(OVERRIDDEN("\"react-hot\":{\"react\":\"18.2.0\"}"), DOCUMENTS, "",
         NPM_OK, SELECTED(PACKAGE("react-hot", "4.0.0") "," PACKAGE("react", "17.0.2")))
    RESOLVE(ASKS("\"react\":\"file:react\""), DOCUMENTS, "", NPM_OK, SELECTED(""))
    RESOLVE(GROUPS, DOCUMENTS, OMIT("\"dev\",\"optional\",\"peer\""), NPM_OK, SELECTED(""))
    RESOLVE(GROUPS, DOCUMENTS, OMIT("\"dev\",\"peer\""), NPM_OK, SELECTED(PACKAGE("react-hot", "4.0.0")))
    RESOLVE(GROUPS, DOCUMENTS, OMIT("\"dev\",\"optional\""), NPM_OK, CULPRITS(CULPRIT("false", "gone", "*", "null")))
    RESOLVE(THREE, DOCUMENTS, "", NPM_OK, SELECTED(PACKAGE("react", "17.0.2")))
    RESOLVE("{}", "{}", "", NPM_OK, SELECTED(""))
    RESOLVE(ASKS("\"react\":\"*\""), DOCUMENTS, STEPS("0"), NPM_OK, UNDECIDED)
    RESOLVE(ASKS("\"a\":\"*\""), ODD, "", NPM_OK, SELECTED(PACKAGE("a", "1.0.0") "," PACKAGE("b", "2.0.0")))
    RESOLVE(ASKS("\"self\":\"1\""), ODD, "", NPM_OK, CULPRITS(CULPRIT("true", "self", "1", "\"2.0.0\"")))
    RESOLVE(ASKS("\"self\":\"*\""), ODD, "", NPM_OK, SELECTED(PACKAGE("self", "2.0.0")))
    RESOLVE(ASKS("\"none\":\"*\""), ODD, "", NPM_OK, CULPRITS(CULPRIT("true", "none", "*", "null")))
    RESOLVE(ASKS("\"seven\":\"*\""), ODD, "", NPM_OK, CULPRITS(CULPRIT("true", "seven", "*", "null")))
    RESOLVE(ASKS("\"\\u0001\":\"*\""), ODD, "", NPM_OK, SELECTED(PACKAGE("\\u0001", "1.0.0")))
    RESOLVE("7", "{}", "", NPM_REFUSED, NAMED("invalid_manifest"))
    RESOLVE("{\"dependencies\":7}", "{}", "", NPM_REFUSED, NAMED("invalid_manifest"))
    RESOLVE("{\"version\":7}", "{}", "", NPM_REFUSED, NAMED("invalid_manifest"))
    RESOLVE(ASKS("\"a\":7"), "{}", "", NPM_REFUSED, NAMED("invalid_manifest"))
    RESOLVE(STRING(""), "{}", "", NPM_REFUSED, NAMED("no_json"))
    RESOLVE("{}\0", "{}", "", NPM_REFUSED, NAMED("no_json"))
    RESOLVE("{}", STRING("[[["), "", NPM_REFUSED, NAMED("no_json"))
    RESOLVE("{}", "\"\\ud800\"", "", NPM_REFUSED, NAMED("no_json"))
    RESOLVE("{}", "[]", "", NPM_REFUSED, NAMED("no_object"))
    RESOLVE("{}", "{}", BEFORE("yesterday"), NPM_REFUSED, NAMED("no_time"))
    RESOLVE(ASKS("\"a\":\"*\""), TREE, "", NPM_OK, SELECTED(PACKAGE("a", "1.1.0")))
    RESOLVE(ASKS("\"a\":\"*\""), TREE, FLAT, NPM_OK, SELECTED(PACKAGE("a", "1.1.0") "," PACKAGE("b", "1.1.0")))
    RESOLVE(ASKS("\"c\":\"*\""), TREE, "", NPM_OK, SELECTED(PACKAGE("c", "1.0.0")))
    RESOLVE(ASKS("\"c\":\"*\""), TREE, FLAT, NPM_OK, CULPRITS(CULPRIT("true", "c", "*", "null")))
    RESOLVE(ASKS("\"a\":\"*\""), TREE, LOWEST, NPM_OK, SELECTED(PACKAGE("a", "1.0.0")))
    RESOLVE(ASKS("\"a\":\"*\""), TREE, FLAT LOWEST, NPM_OK, SELECTED(PACKAGE("a", "1.0.0") "," PACKAGE("b", "1.0.0")))
    RESOLVE(ASKS("\"a\":\"*\""), TREE, NODE("18.20.0"), NPM_OK, SELECTED(PACKAGE("a", "1.0.0")))
    RESOLVE(ASKS("\"a\":\"*\""), TREE, NODE("v20.1.0"), NPM_OK, SELECTED(PACKAGE("a", "1.1.0")))
    RESOLVE(ASKS("\"a\":\"*\""), TREE, FLAT NODE("18.20.0"), NPM_OK, SELECTED(PACKAGE("a", "1.0.0") "," PACKAGE("b", "1.1.0")))
    RESOLVE(ASKS("\"a\":\"*\""), TREE, BY_LOCK(LOCK(LOCKED("a", "1.0.0"))), NPM_OK, SELECTED(PACKAGE("a", "1.0.0")))
    RESOLVE(ASKS("\"a\":\"*\""), TREE, BY_LOCK(LOCK("")), NPM_OK, SELECTED(PACKAGE("a", "1.1.0")))
    RESOLVE(ASKS("\"a\":\"*\""), TREE, FLAT BY_LOCK(LOCK(LOCKED("b", "1.2.0"))),
         NPM_OK, SELECTED(PACKAGE("a", "1.1.0") "," PACKAGE("b", "1.2.0")))
    RESOLVE(ASKS("\"b\":\"*\""), TREE, LOWEST BY_LOCK(LOCK(LOCKED("b", "1.1.0"))), NPM_OK, SELECTED(PACKAGE("b", "1.1.0")))
    RESOLVE("{\"peerDependencies\":{\"a\":\"*\"}}", TREE, FLAT OMIT("\"peer\""), NPM_OK, SELECTED(""))
    RESOLVE(ASKS("\"a\":\"*\""), TREE, FLAT STEPS("0"), NPM_OK, UNDECIDED)
    RESOLVE(ASKS("\"a\":\"*\""), TREE, FLAT BY_LOCK(LOCK(LOCKED("a", "1.0.0"))) AS_LOCK, NPM_OK, A_LOCK)
    RESOLVE(ASKS("\"a\":\"*\""), TREE, FLAT STEPS("0") AS_LOCK, NPM_OK, UNDECIDED)
    RESOLVE(ASKS("\"c\":\"*\""), TREE, FLAT AS_LOCK, NPM_OK, CULPRITS(CULPRIT("true", "c", "*", "null")))
    RESOLVE("{}", "{}", FLAT AS_LOCK, NPM_OK, NO_LOCK)
    RESOLVE(OVERRIDDEN("\"react-hot\":{\"react\":\"18.2.0\"},\"react@17\":\"18.2.0\""), DOCUMENTS, FLAT AS_LOCK,
         NPM_OK, UNREAD("\"react-hot\",\"react\""))
    RESOLVE(OVERRIDDEN("\"react@17\":\"18.2.0\""), DOCUMENTS, FLAT,
         NPM_OK, SELECTED(PACKAGE("react-hot", "4.0.0") "," PACKAGE("react", "17.0.2")))
    RESOLVE("{\"dependencies\":{\"react-hot\":\"6\"},\"overrides\":{\"react@17\":\"18.2.0\"}}", DOCUMENTS, FLAT AS_LOCK,
         NPM_OK, CULPRITS(CULPRIT("true", "react-hot", "6", "\"4.0.0\"")))
    RESOLVE("{}", "{}", AS_LOCK, NPM_REFUSED, NAMED("not_flat"))
    RESOLVE("{}", "{}", FLAT OMIT("\"dev\"") AS_LOCK, NPM_REFUSED, NAMED("omits"))
    RESOLVE("{}", "{}", FLAT OMIT("\"optional\"") AS_LOCK, NPM_REFUSED, NAMED("omits"))
    RESOLVE("{}", "{}", FLAT OMIT("\"peer\"") AS_LOCK, NPM_REFUSED, NAMED("omits"))
    RESOLVE("{}", "{}", NODE("20"), NPM_REFUSED, NAMED("no_version"))
    RESOLVE("{}", "{}", NODE(">=20"), NPM_REFUSED, NAMED("no_version"))
    RESOLVE("{}", "{}", BY_LOCK(STRING("{")), NPM_REFUSED, NAMED("no_json"))
    RESOLVE("{}", "{}", BY_LOCK(STRING(" ")), NPM_REFUSED, NAMED("no_json"))
    RESOLVE("{}", "{}", BY_LOCK("{}"), NPM_REFUSED, LOCK_FAULT("version"))
    RESOLVE("{}", "{}", BY_LOCK("{\"lockfileVersion\":1,\"packages\":{}}"), NPM_REFUSED, LOCK_FAULT("version"))
    RESOLVE("{}", "{}", BY_LOCK("{\"lockfileVersion\":2}"), NPM_REFUSED, LOCK_FAULT("packages"))
    RESOLVE("{}", "{}", BY_LOCK(LOCK("\"a//b\":{}")), NPM_REFUSED, LOCK_FAULT("folder"))
    RESOLVE("{}", "{}", BY_LOCK(LOCK("\"\":{\"workspaces\":7}")), NPM_REFUSED, LOCK_FAULT("workspaces"))
    RESOLVE("{}", "{}", BY_LOCK(LOCK("\"a\":7")), NPM_REFUSED, LOCK_FAULT("package"))
    RESOLVE("{}", "{}", BY_LOCK(LOCK("\"a\":{\"link\":true,\"resolved\":\"b\"}")), NPM_REFUSED, LOCK_FAULT("link"))
    RESOLVE("{}", "{}", BY_LOCK(LOCK("\"a\":{\"version\":7}")), NPM_REFUSED, LOCK_FAULT("package_version"))
    RESOLVE("{}", "{}", BY_LOCK(LOCK("\"a\":{\"dependencies\":[]}")), NPM_REFUSED, LOCK_FAULT("dependencies"))
    RESOLVE("{}", "{}", BY_LOCK(LOCK("\"a\":{\"dependencies\":{\"b\":7}}")), NPM_REFUSED, LOCK_FAULT("spec"))
    RESOLVE(ASKS("\"react\":\"file:react\""), DOCUMENTS, "", NPM_OK, "\"left_out\":[],\"missing\":[],\"refused\":[\"react\"],\"unread\":[]}")
    RESOLVE("{\"optionalDependencies\":{\"react\":\"^20\"}}", DOCUMENTS, "", NPM_OK, "\"left_out\":[\"react\"],\"missing\":[],\"refused\":[],\"unread\":[]}")
    RESOLVE(ASKS("\"d\":\"*\""), "{\"d\":{\"versions\":{\"1.0.0\":{\"dependencies\":{\"gone\":\"1\"}},\"0.9.0\":{}}}}", FLAT, NPM_OK,
            "\"left_out\":[],\"missing\":[\"gone\"],\"refused\":[],\"unread\":[]}")
    RESOLVE(OVERRIDDEN("\"react@17\":\"18.2.0\""), DOCUMENTS, FLAT, NPM_OK, "\"refused\":[],\"unread\":[\"react\"]}")
    RESOLVE("{}", "{}", OMIT("\"all\""), NPM_REFUSED, ",\"line\":1,\"member\":[\"omit\",0],")
    RESOLVE("{}", "{}", OMIT("\"dev\",7"), NPM_REFUSED, ",\"line\":1,\"member\":[\"omit\",1],")
    RESOLVE("{}", "{}", MEMBER("omit", "\"dev\""), NPM_REFUSED, NAMED("no_list"))
    RESOLVE("{}", "{}", STEPS("-1"), NPM_REFUSED, NAMED("no_count"))
    RESOLVE("{}", "{}", STEPS("1.5"), NPM_REFUSED, NAMED("no_count"))
    RESOLVE("{}", "{}", MEMBER("flat", "1"), NPM_REFUSED, NAMED("no_boolean"))
    RESOLVE("{}", "{}", MEMBER("lowest", "1"), NPM_REFUSED, NAMED("no_boolean"))
    RESOLVE("{}", "{}", MEMBER("lockfile", "1"), NPM_REFUSED, NAMED("no_boolean"))
    RESOLVE("{}", "{}", MEMBER("avoid", "\"1\""), NPM_REFUSED, NAMED("unknown_member"))
    RESOLVE("{\"dependencies\":{\"a\":7}}", "{}", "", NPM_REFUSED, "\"fault\":\"spec\",\"line\":1,\"member\":[\"manifest\",\"dependencies\",\"a\"],")
    ROW("resolve", "{\"manifest\":{}}", NPM_REFUSED, "\"member\":[\"packuments\"],")

    /* check */
    CHECK(INSTALLED, "", NPM_OK, "{\"clean\":false,\"dependencies\":2,\"not_checked\":0,\"packages\":3,\"problems\":[{\"dev\":false,\"from\":\"\",\"name\":\"b\",")
    CHECK(INSTALLED, MEMBER("ignore", "[\"invalid\"]"), NPM_OK, "{\"clean\":true,\"dependencies\":2,\"not_checked\":0,\"packages\":3,\"problems\":[]}")
    CHECK(INSTALLED, MEMBER("ignore", "[\"invalid\"]") NODE("18.0.0"), NPM_OK, "\"problem\":\"engine\"")
    CHECK(INSTALLED, MEMBER("ignore", "[\"invalid\",\"engine\"]") NODE("18.0.0"), NPM_OK, "{\"clean\":true,")
    CHECK(INSTALLED, MEMBER("manifest", ASKS("\"a\":\"^2\"")) MEMBER("exact", "true"), NPM_OK, "\"problem\":\"group\"")
    CHECK(INSTALLED, MEMBER("manifest", ASKS("\"a\":\"^1\"")) MEMBER("ignore", "[\"group\"]"), NPM_OK, "{\"clean\":true,")
    CHECK(INSTALLED, MEMBER("ignore", "[\"invalid\"]") MEMBER("sources", "true"), NPM_OK, "{\"clean\":false,")
    CHECK(INSTALLED, MEMBER("registry", "[\"https://r.example\"]"), NPM_OK, "{\"clean\":false,")
    CHECK(INSTALLED, OMIT("\"dev\""), NPM_OK, "{\"clean\":false,")
    CHECK(INSTALLED, MEMBER("strict", "true") MEMBER("unchecked", "true"), NPM_OK, "{\"clean\":false,")
    CHECK(INSTALLED, MEMBER("workspaces", "{\"w\":{\"dependencies\":{\"a\":\"1\"}}}") MEMBER("manifest", "{}"), NPM_OK, "\"problem\":\"group\"")
    CHECK(OLD_INSTALLED, "", NPM_OK, "\"problem\":\"missing\"")
    CHECK(OLD_INSTALLED, MEMBER("manifest", "{\"link\":true}"), NPM_REFUSED, ",\"fault\":\"manifest\",\"line\":1,\"member\":[\"manifest\",\"link\"],")
    CHECK("{\"lockfileVersion\":1,\"dependencies\":{\"a\":7}}", "", NPM_REFUSED, ",\"fault\":\"entry\",\"line\":1,\"member\":[\"lock\",\"dependencies\",\"a\"],")
    CHECK(LOCK("\"a\":{\"dependencies\":{\"b\":7}}"), "", NPM_REFUSED, LOCK_FAULT("spec"))
    CHECK(STRING("{\\n\\\"lockfileVersion\\\":3,\\n \\\"packages\\\":7}"), "", NPM_REFUSED,
          "{\"column\":2,\"fault\":\"packages\",\"line\":3,\"member\":[\"lock\",\"packages\"],")
    CHECK(INSTALLED, MEMBER("workspaces", "[]"), NPM_REFUSED, NAMED("no_object"))
    CHECK(INSTALLED, MEMBER("workspaces", "{\"w\":7}"), NPM_REFUSED, "\"member\":[\"workspaces\",\"w\"],")
    CHECK(INSTALLED, MEMBER("manifest", "7"), NPM_REFUSED, NAMED("invalid_manifest"))
    CHECK(INSTALLED, MEMBER("ignore", "[\"all\"]"), NPM_REFUSED, NAMED("no_word"))
    CHECK(INSTALLED, OMIT("\"peer\""), NPM_REFUSED, NAMED("no_word"))
    CHECK(INSTALLED, MEMBER("registry", "\"https://r.example\""), NPM_REFUSED, NAMED("no_list"))
    CHECK(INSTALLED, NODE("20"), NPM_REFUSED, NAMED("no_version"))
    CHECK(INSTALLED, MEMBER("node", "20"), NPM_REFUSED, NAMED("no_string"))
    CHECK(INSTALLED, MEMBER("sources", "1"), NPM_REFUSED, NAMED("no_boolean"))
    CHECK(INSTALLED, MEMBER("exact", "1"), NPM_REFUSED, NAMED("no_boolean"))
    CHECK(INSTALLED, MEMBER("strict", "1"), NPM_REFUSED, NAMED("no_boolean"))
    CHECK(INSTALLED, MEMBER("unchecked", "1"), NPM_REFUSED, NAMED("no_boolean"))
    CHECK(INSTALLED, MEMBER("advisories", "{}"), NPM_REFUSED, NAMED("unknown_member"))
    ROW("check", "{}", NPM_REFUSED, NAMED("missing_member"))

    /* audit */
    AUDIT(ADVISORIES, "", NPM_OK, "{\"clean\":false,\"advisories\":1,\"excepted\":[],\"hits\":[{")
    AUDIT("{}", "", NPM_OK, "{\"clean\":true,\"advisories\":0,\"excepted\":[],\"hits\":[]}")
    AUDIT(ADVISORIES, MEMBER("severity", "\"critical\""), NPM_OK, "{\"clean\":true,\"advisories\":1,\"excepted\":[],\"hits\":[]}")
    AUDIT(ADVISORIES, MEMBER("exceptions", EXCEPTION("")) MEMBER("today", "\"2026-12-01\""), NPM_OK,
          "{\"clean\":true,\"advisories\":1,\"excepted\":[{\"folder\":\"node_modules/a\",\"id\":\"7\",\"name\":\"a\",\"reason\":\"it is not called\"}],\"hits\":[]}")
    AUDIT(ADVISORIES, MEMBER("exceptions", EXCEPTION(MEMBER("until", "\"2026-11-30\""))) MEMBER("today", "\"2026-12-01\""), NPM_OK, "{\"clean\":false,")
    AUDIT(ADVISORIES, MEMBER("exceptions", EXCEPTION("")), NPM_REFUSED, "\"member\":[\"today\"],")
    AUDIT(ADVISORIES, MEMBER("exceptions", EXCEPTION(MEMBER("until", "\"2026-02-30\""))), NPM_REFUSED, "\"member\":[\"exceptions\",0,\"until\"],")
    AUDIT(ADVISORIES, MEMBER("exceptions", EXCEPTION(MEMBER("why", "7"))), NPM_REFUSED, "\"member\":[\"exceptions\",0,\"why\"],")
    AUDIT(ADVISORIES, MEMBER("exceptions", "[{\"id\":7}]"), NPM_REFUSED, NAMED("no_string"))
    AUDIT(ADVISORIES, MEMBER("exceptions", "[{\"id\":\"7\"}]"), NPM_REFUSED, NAMED("missing_member"))
    AUDIT(ADVISORIES, MEMBER("exceptions", "[7]"), NPM_REFUSED, NAMED("no_object"))
    AUDIT(ADVISORIES, MEMBER("exceptions", "{}"), NPM_REFUSED, NAMED("no_list"))
    AUDIT(ADVISORIES, MEMBER("today", "\"yesterday\""), NPM_REFUSED, NAMED("no_day"))
    AUDIT(ADVISORIES, MEMBER("severity", "\"bad\""), NPM_REFUSED, NAMED("no_word"))
    AUDIT(ADVISORIES, OMIT("\"peer\""), NPM_REFUSED, NAMED("no_word"))
    AUDIT("{\"a\":[{\"id\":7,\"severity\":7}]}", "", NPM_REFUSED, "\"member\":[\"advisories\",\"a\",0,\"severity\"],\"message\":\"`severity` is no string\",\"name\":\"invalid_advisories\"}")
    AUDIT("7", "", NPM_REFUSED, NAMED("invalid_advisories"))
    AUDIT("null", "", NPM_REFUSED, NAMED("missing_member"))
    ROW("audit", "{\"lock\":{},\"advisories\":{}}", NPM_REFUSED, NAMED("invalid_lock"))
};
