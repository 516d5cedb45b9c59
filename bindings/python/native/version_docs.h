/* SPDX-License-Identifier: Apache-2.0
 *
 * The docstrings of Version and of its methods, for version.c. Each example is run by the tests.
 */
#ifndef VERSION_DOCS_H
#define VERSION_DOCS_H

PyDoc_STRVAR(version_doc,
"Version(text, /, *, strict=False)\n"
"--\n"
"\n"
"A version, read from a text in npm's loose form, or by the grammar of SemVer 2.0.0 alone. It never changes.\n"
"\n"
">>> Version('v1.2.3-rc.4+build.5')\n"
"Version('1.2.3-rc.4+build.5')\n"
">>> Version('v1.2.3', strict=True)\n"
"Traceback (most recent call last):\n"
"    ...\n"
"node_semver.SemverError: Other at byte 0: what begins here is no part of a version\n"
"    v1.2.3\n"
"    ^\n"
"\n"
"Versions are ordered by SemVer 2.0.0, section 11. The build is neither compared nor hashed.\n"
"\n"
">>> Version('1.2.3-rc.4') < Version('1.2.3') == Version('1.2.3+build')\n"
"True\n"
">>> Version('1.10.0') > Version('1.9.0')\n"
"True\n"
"\n"
"A text that is not a version raises SemverError.\n"
"\n"
">>> Version('1.2')\n"
"Traceback (most recent call last):\n"
"    ...\n"
"node_semver.SemverError: Context at byte 3: a number or a dot is missing\n"
"    1.2\n"
"       ^");

PyDoc_STRVAR(key_doc,
"Bytes that sort as versions do, for a column of a database: one key is less than another exactly if its version is, and\n"
"they are equal exactly if the versions are. The build is not in the key. See `Range.sql`.\n"
"\n"
">>> Version('1.2.3').key\n"
"b'\\x01\\x02\\x03\\xff'\n"
">>> Version('1.9.0').key < Version('1.10.0-rc.1').key < Version('1.10.0').key == Version('1.10.0+build').key\n"
"True");

PyDoc_STRVAR(compare_build_doc,
"compare_build($self, other, /)\n"
"--\n"
"\n"
"-1 if the version is below the other one, 0 if both are the same, and 1 if it is above. Two versions that are equal\n"
"are compared by their builds: no build is below every build. 0 means that they print alike.\n"
"\n"
">>> Version('1.2.3+a').compare_build(Version('1.2.3+b')), Version('1.2.4').compare_build(Version('1.2.3+b'))\n"
"(-1, 1)\n"
">>> from functools import cmp_to_key\n"
">>> sorted(map(Version, ['1.0.0+2', '1.0.0+10', '1.0.0']), key=cmp_to_key(Version.compare_build))\n"
"[Version('1.0.0'), Version('1.0.0+2'), Version('1.0.0+10')]");

PyDoc_STRVAR(coerce_doc,
"coerce($type, text, /, *, rtl=False, include_prerelease=False)\n"
"--\n"
"\n"
"The version that is found in a text, as npm's `coerce` finds it, or None: the first one, two or three numbers with\n"
"dots between them. With `rtl` the last. Missing numbers are 0. A prerelease and a build are read with\n"
"`include_prerelease` alone.\n"
"\n"
">>> Version.coerce('release node-14.2, of May')\n"
"Version('14.2.0')\n"
">>> Version.coerce('1.2.3.4'), Version.coerce('1.2.3.4', rtl=True)\n"
"(Version('1.2.3'), Version('2.3.4'))\n"
">>> Version.coerce('v1.2-rc.1'), Version.coerce('v1.2-rc.1', include_prerelease=True)\n"
"(Version('1.2.0'), Version('1.2.0-rc.1'))\n"
">>> print(Version.coerce('latest'))\n"
"None");

PyDoc_STRVAR(diff_doc,
"diff($self, other, /)\n"
"--\n"
"\n"
"What leads from the lower of two versions to the higher one, as a name of npm's, or None if they are equal.\n"
"\n"
">>> Version('1.2.3').diff(Version('1.3.0')), Version('1.3.0-rc.1').diff(Version('1.2.3'))\n"
"('minor', 'preminor')\n"
">>> print(Version('1.2.3+a').diff(Version('1.2.3+b')))\n"
"None");

PyDoc_STRVAR(bump_doc,
"bump($self, release, /, *, identifier=None, base=0)\n"
"--\n"
"\n"
"The version after a bump, as npm's `inc` makes it: 'major', 'minor', 'patch', 'premajor', 'preminor', 'prepatch',\n"
"'prerelease' or 'pre'. It has no build.\n"
"\n"
">>> Version('1.2.3').bump('minor'), Version('2.0.0-rc.1').bump('major')\n"
"(Version('1.3.0'), Version('2.0.0'))\n"
">>> Version('1.2.3').bump('prerelease', identifier='beta')\n"
"Version('1.2.4-beta.0')\n"
">>> Version('1.2.4-beta.0').bump('prerelease', identifier='beta')\n"
"Version('1.2.4-beta.1')\n"
"\n"
"The base is the number after the identifier of a new prerelease: 0, 1, or None for no number. An identifier of\n"
"digits is a number, and the empty text is none. Raises BumpError if there is no such version.\n"
"\n"
">>> Version('1.2.3').bump('preminor', identifier='beta', base=None)\n"
"Version('1.3.0-beta')\n"
">>> Version('1.3.0-beta').bump('prerelease', identifier='beta', base=None)\n"
"Traceback (most recent call last):\n"
"    ...\n"
"node_semver.BumpError: SameIdentifier: the prerelease is this identifier already, and no number is to follow it");

#endif
