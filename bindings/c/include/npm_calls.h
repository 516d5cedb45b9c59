/* SPDX-License-Identifier: Apache-2.0 */
/*
 * Calls by name: a text in JSON goes in, and a text in JSON comes out. They pick the version of a package that npm would install, find
 * versions that fit together, and check lock files.
 *
 * The function makes one call of the proved crate `npm_calls`, and the contract of its export in crates/npm_c/src says what it writes.
 * src/calls/npm_calls.c puts an empty text in the place of each null pointer.
 *
 * - Each pointer may be NULL. A text that is NULL counts as empty. A length is that of what its pointer points to, at most
 *   SIZE_MAX / 2. What a call writes to does not overlap what it reads.
 * - Texts are UTF-8 and need no zero at the end.
 * - Memory comes from the program's malloc, realloc and free, which align a block to each power of two up to 16 that
 *   divides its size. A call frees all that it allocated. If an allocation fails, it returns NPM_OUT_OF_MEMORY, and it may be
 *   made again.
 * - No call is made from a signal handler, or in the forked child of a program with threads. The library keeps no state,
 *   so any number of threads may call it.
 */
#ifndef NPM_CALLS_H
#define NPM_CALLS_H

#include <stddef.h>
#include <stdint.h>

#ifdef __cplusplus
extern "C" {
#endif

/* The version of this header. */
#define NPM_CALLS_LIBRARY_VERSION "1.0.0"

/* Returns the version of the library that the program runs with, as "1.0.0". It ends with a zero and is never freed. */
const char *npm_calls_library_version(void);

/* What a call returns. */
typedef uint32_t npm_status;

#define NPM_OK 0u            /* there is an answer */
#define NPM_REFUSED 1u       /* the call is refused, and the object says why */
#define NPM_OUT_OF_MEMORY 2u /* an allocation failed, and nothing is written */

/*
 * Makes the call of a name. Its text is a JSON object, of which each member is as below; one that is null counts as absent. The answer is a
 * JSON object without spaces. A later version may have more members, in both.
 *
 * It is written to the room of `size` bytes if it fits, without a zero at the end; else the room stays as it was. `*length` is its length in
 * either case, and the call may be made again with a room of so many bytes. A room of the text's length and 4096 bytes more is seldom too short.
 *
 * A document is JSON, or a string with the text of it. A lock file is a package-lock.json, a manifest a package.json, a packument the document of
 * a package as a registry serves it, and packuments are an object of them by the names of packages. A time is as "2024-03-01T12:00:00Z", a day as
 * "2024-03-01", and a version as "20.1.0".
 *
 * "pick": the version of a package that npm would install.
 *     packument        a document
 *     wanted           a version, a tag or a range; none: `*`
 *     tag              the version of this tag is preferred; none: `latest`
 *     before           versions that were published after this time are left out
 *     avoid            a range: its versions are picked only if no other version is left
 *     avoid_strict     true: a version to avoid is never picked; one outside the range is picked instead
 *     include_staged   true: the versions of `stagedVersions` can be picked too
 *     node, npm        the version of Node and of npm, for `engines`; none: any is fine
 *
 *     {"avoided":false,"major":false,"outcome":"picked","outside":false,"version":"1.2.0"}
 *
 *   `avoided`: it is a version to avoid, and no other was left; `outside`: it is picked in place of one; `major`: of all versions, and not of those
 *   that `^` admits. Else `outcome` says why there is none: invalid_wanted, no_tag, no_version, no_versions, none_in_range, forbidden or
 *   only_avoided.
 *
 * "outdated": the dependencies of a lock file of which npm would install another version, or which have a later one.
 *     lock             a lock file of version 2 or 3
 *     packuments       a document
 *     all              true: those of all packages, and not of the root alone
 *     tag, before, avoid, avoid_strict, include_staged, node, npm
 *
 *     {"absent":0,"outdated":[{"current":"1.0.0","folder":"node_modules/a","from":"","latest":"2.0.0","name":"a","wanted":"1.2.0"}]}
 *
 *   `absent` counts the dependencies without a packument.
 *
 * "keep": the versions that a mirror needs.
 *     packuments       a document
 *     manifests        a list of manifests
 *     lock             a lock file of version 2 or 3
 *     all              true: all versions in a range, and not only those that are picked
 *     tag, before, avoid, avoid_strict, include_staged, node, npm
 *
 *     {"absent":[],"complete":true,"kept":["a@1.2.0"],"lacking":[],"notes":[]}
 *
 *   `absent`: packages without a packument; `lacking`: installed versions that are not in one.
 *
 * "resolve": versions that fit together, or why none do.
 *     manifest         a document
 *     packuments       a document
 *     lock             a lock file of version 2 or 3: the version in node_modules/NAME comes first for a name
 *     omit             a list of "dev", "optional" and "peer": these groups are left out
 *     flat             true: dependencies of selected versions count too: one version of each package
 *     lowest           true: the lowest versions are preferred, and the tag does not count
 *     lockfile         true: the answer has a package-lock.json as a text; with `flat`, and no group left out
 *     steps            so many steps of the search at most, and so many again to find what cannot be installed together; none: 10000000
 *     tag, before, node
 *
 *     {"outcome":"selected","packages":[{"name":"a","package":"a","version":"1.0.0"}],..}
 *     {"lockfile":"{\n..","outcome":"selected",..}
 *     {"culprits":[{"document":true,"name":"a","needed":true,"spec":"^2","would_fit":"1.0.0"}],"outcome":"none","reasons":[..],..}
 *     {"outcome":"undecided",..}                  the steps were used up; if they were so after `none` was known, `culprits` is null
 *     {"outcome":"unread","overrides":["a"],..}   no lock file: npm reads the rules in `overrides` for these names
 *
 *   Each has four lists of names besides: `left_out`, optional dependencies of which no version is in the range; `missing`, without a packument,
 *   so that versions which need them are left out; `refused`, which are asked for at no registry; and `unread`, whose rule in `overrides` is not read.
 *
 * "check": the problems of a lock file.
 *     lock             a lock file of version 1, 2 or 3
 *     manifest         that of the root: it and the lock file are compared, and what it asks for counts
 *     workspaces       an object of manifests by their folders, which are compared too
 *     node             the version of Node, which `engines` of each package is checked with
 *     ignore           a list of kinds that are left out: "group", "missing", "invalid", "peer-local" and "engine"
 *     omit             a list of "dev" and "optional": the packages of these groups are left out
 *     registry         a list of URLs: packages come from below these
 *     sources          true: suspicious sources of packages count
 *     exact            true: what is not asked alike counts for `clean`
 *     strict           true: what is not checked counts for `clean`; also `sources` and `unchecked`
 *     unchecked        true: what is not checked is listed too
 *
 *     {"clean":false,"dependencies":4,"not_checked":0,"packages":3,"problems":[..]}
 *
 * "audit": the packages of a lock file that security advisories hit.
 *     lock             a lock file of version 1, 2 or 3
 *     advisories       in npm's form or in OSV's
 *     severity         less severe ones are left out: "info", "low", "moderate", "high" or "critical"
 *     omit             a list of "dev" and "optional"
 *     exceptions       a list of objects with `id`, `package`, `reason` and maybe `until`, the last day on which the exception applies
 *     today            the day: an advisory that is withdrawn by then does not count. Needed for exceptions
 *
 *     {"clean":false,"advisories":1,"excepted":[],"hits":[..]}
 *
 * Items of `problems` and `hits` are those that npm_lock_check writes with --format json.
 *
 * If the call is refused, the object says why:
 *
 *     {"column":15,"line":1,"member":["tagg"],"message":"the call has no such member","name":"unknown_member"}
 *
 * `member` is the path to the member, by names and by places in lists, and `line` and `column` are counted from 1, in the text of the call or of the
 * document that is given as a string. `name` is one of these: no_call, no_utf8, no_json, no_object, unknown_member, missing_member, no_string,
 * no_boolean, no_list, no_count, no_time, no_version, no_day, no_word, not_flat, omits, invalid_manifest, invalid_lock and invalid_advisories. Of
 * invalid_manifest and invalid_lock `fault` names the fault: version, packages, folder, workspaces, package, entry, manifest, link, package_version,
 * dependencies or spec.
 */
npm_status npm_call(const char *name, size_t name_length, const char *text, size_t text_length, char *room, size_t size, size_t *length);

#ifdef __cplusplus
}
#endif

#endif
