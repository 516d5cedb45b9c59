/* SPDX-License-Identifier: Apache-2.0
 *
 * The docstrings of Range, for range.c. Each example is run by the tests.
 */
#ifndef RANGE_DOCS_H
#define RANGE_DOCS_H

PyDoc_STRVAR(range_doc,
"Range(text, /)\n"
"--\n"
"\n"
"The versions that a text in npm's syntax asks for. It never changes.\n"
"\n"
">>> wanted = Range('^1.2.3-rc.4 || >=3')\n"
">>> '1.9.0' in wanted, Version('3.0.0') in wanted, '2.0.0' in wanted\n"
"(True, True, False)\n"
"\n"
"A prerelease is in a range only if an end of the range is a prerelease of the same three numbers.\n"
"\n"
">>> '1.2.3-rc.5' in wanted, '1.2.4-rc.6' in wanted\n"
"(True, False)\n"
"\n"
"`a & b` is the intersection and `a - b` is the part of `a` that is not in `b`. Both are None if they are empty.\n"
"`a | b` is the union: a version is in it if it is in one of the two. If the sets of the two multiply to more than\n"
"1,000,000, `a & b` and `a - b` raise ValueError.\n"
"\n"
">>> Range('^1') & Range('>=1.5')\n"
"Range('>=1.5.0 <2.0.0-0')\n"
"\n"
"A prerelease may be in `a & b` that is not in both, since the ends of `a` let it in and those of `b` do not.\n"
"\n"
">>> '2.0.0-rc.4' in Range('^2.0.0-rc.1') & Range('>=1.5'), '2.0.0-rc.4' in Range('>=1.5')\n"
"(True, False)\n"
">>> Range('^1') - Range('1.5.0')\n"
"Range('>=1.0.0 <1.5.0||>1.5.0 <2.0.0-0')\n"
">>> print(Range('^1') & Range('^2'))\n"
"None\n"
">>> Range('^1') | Range('^3')\n"
"Range('>=1.0.0 <2.0.0-0||>=3.0.0 <4.0.0-0')\n"
"\n"
"Ranges are equal if they have equal sets in the same order. Builds are not compared.\n"
"\n"
">>> Range('^1.2') == Range('>=1.2 <2.0.0-0'), Range('1 || 2') == Range('2 || 1')\n"
"(True, False)\n"
"\n"
"A text without any range in it raises SemverError.\n"
"\n"
">>> Range('latest')\n"
"Traceback (most recent call last):\n"
"    ...\n"
"node_semver.SemverError: NoValidRanges at byte 0: no alternative is a range that a version can be in\n"
"    latest\n"
"    ^");

PyDoc_STRVAR(sets_doc,
"The sets of the range: pairs of the lower cut and the upper one. A cut is a place between versions, and is a pair of\n"
"a kind and a version: 'before' lies just below the version and 'after' just above it. 'start' lies below every\n"
"version and 'end' above, and both have None.\n"
"\n"
">>> Range('^1.2.3 || >2.0.0').sets == (\n"
"...     (('before', Version('1.2.3')), ('before', Version('2.0.0-0'))),\n"
"...     (('after', Version('2.0.0')), ('end', None)),\n"
"... )\n"
"True");

PyDoc_STRVAR(from_sets_doc,
"from_sets($type, sets, /)\n"
"--\n"
"\n"
"The range of these sets, in their order: each as `sets` has it, where a version may be a str too.\n"
"\n"
">>> Range.from_sets([(('before', '1.2.3'), ('before', '2.0.0-0')), (('after', '3.0.0'), ('end', None))])\n"
"Range('>=1.2.3 <2.0.0-0||>3.0.0')\n"
">>> Range.from_sets(Range('^1').sets) == Range('^1')\n"
"True\n"
"\n"
"Raises ValueError if there are no sets, if a lower cut is not below the upper one, or if a number is above\n"
"9007199254740992.\n"
"\n"
">>> Range.from_sets([(('after', '1.2.3'), ('before', '1.2.3'))])\n"
"Traceback (most recent call last):\n"
"    ...\n"
"ValueError: the set at 0 has no cut between its ends, or has a number above 9007199254740992");

PyDoc_STRVAR(parse_npm_doc,
"parse_npm($type, text, /, *, loose=False, include_prerelease=False)\n"
"--\n"
"\n"
"The range of a text as npm itself reads it, with npm's two options. `Range(text)` reads it as the Rust crate does.\n"
"\n"
">>> '20.5.0' in Range.parse_npm('<=20'), '20.5.0' in Range('<=20')\n"
"(True, False)\n"
">>> '1.2.3' in Range.parse_npm('')\n"
"True\n"
"\n"
"Ask `contains` of a range that was read with prereleases included, since `in` asks more of a prerelease.\n"
"\n"
">>> wanted = Range.parse_npm('>=18', include_prerelease=True)\n"
">>> wanted.contains('18.0.0-rc.1'), '18.0.0-rc.1' in wanted, wanted.contains('17.9.0')\n"
"(True, True, False)\n"
"\n"
"A text with a word that is no comparator raises SemverError, at that word; in loose form, one without any comparator.\n"
"\n"
">>> Range.parse_npm('^1 next', loose=True)\n"
"Range('>=1.0.0 <2.0.0-0')\n"
">>> Range.parse_npm('^1 next')\n"
"Traceback (most recent call last):\n"
"    ...\n"
"node_semver.SemverError: NoValidRanges at byte 3: what begins here is no comparator\n"
"    ^1 next\n"
"       ^");

PyDoc_STRVAR(contains_doc,
"contains($self, version, /)\n"
"--\n"
"\n"
"Whether a version lies inside a set of the range, prerelease or not. `version in range` is stricter: an end of the\n"
"set must be a prerelease of the same three numbers.\n"
"\n"
">>> Range('>=18').contains('20.0.0-rc.1'), '20.0.0-rc.1' in Range('>=18')\n"
"(True, False)\n"
">>> Range('>=18').contains('18.0.0-rc.1')\n"
"False");

PyDoc_STRVAR(filter_doc,
"filter($self, versions, /, *, include_prerelease=False)\n"
"--\n"
"\n"
"A list of the versions that are in the range, as they were given and in their order. A str that is not a version is\n"
"left out. With prereleases included, those for which `contains` is true.\n"
"\n"
">>> Range('^1').filter(['2.0.0', '1.5.0', 'latest', '1.0.0'])\n"
"['1.5.0', '1.0.0']\n"
">>> Range('^1').filter(['1.5.0-rc.1', '1.0.0'], include_prerelease=True)\n"
"['1.5.0-rc.1', '1.0.0']");

PyDoc_STRVAR(max_satisfying_doc,
"max_satisfying($self, versions, /, *, include_prerelease=False)\n"
"--\n"
"\n"
"The greatest of the versions that is in the range, as it was given, or None. Of equal versions, the first. A str\n"
"that is not a version is left out.\n"
"\n"
">>> Range('^1').max_satisfying(['1.0.0', '1.5.0', 'latest', '2.0.0'])\n"
"'1.5.0'\n"
">>> print(Range('^3').max_satisfying(['1.0.0', '1.5.0', '2.0.0']))\n"
"None\n"
">>> Range('^1').max_satisfying(['1.5.0', '1.6.0-rc.1'], include_prerelease=True)\n"
"'1.6.0-rc.1'");

PyDoc_STRVAR(min_satisfying_doc,
"min_satisfying($self, versions, /, *, include_prerelease=False)\n"
"--\n"
"\n"
"The least of the versions that is in the range, as it was given, or None. Of equal versions, the first. A str that\n"
"is not a version is left out.\n"
"\n"
">>> Range('>=1.1').min_satisfying([Version('1.0.0'), Version('2.0.0'), Version('1.5.0')])\n"
"Version('1.5.0')\n"
">>> Range('>=1.1').min_satisfying(['1.5.0', '1.2.0-rc.1'], include_prerelease=True)\n"
"'1.2.0-rc.1'");

PyDoc_STRVAR(min_version_doc,
"min_version($self, /, *, include_prerelease=False)\n"
"--\n"
"\n"
"The least version that is in the range, or None if there is none.\n"
"\n"
">>> Range('>1.0.0').min_version()\n"
"Version('1.0.1')\n"
">>> print(Range('>1.0.0 <1.0.1-0').min_version())\n"
"None\n"
">>> Range('>1.0.0').min_version(include_prerelease=True)\n"
"Version('1.0.1-0')");

PyDoc_STRVAR(allows_any_doc,
"allows_any($self, other, /)\n"
"--\n"
"\n"
"Whether the two ranges overlap: whether `self & other` is a Range, and not None.\n"
"\n"
">>> Range('^1').allows_any(Range('1.5 - 3')), Range('^1').allows_any(Range('>=2'))\n"
"(True, False)");

PyDoc_STRVAR(allows_all_doc,
"allows_all($self, other, /)\n"
"--\n"
"\n"
"Whether the range covers the other one: whether `other - self` is None.\n"
"\n"
">>> Range('^1').allows_all(Range('1.5.0')), Range('1.5.0').allows_all(Range('^1'))\n"
"(True, False)");

PyDoc_STRVAR(least_beyond_doc,
"least_beyond($self, other, /, *, include_prerelease=False)\n"
"--\n"
"\n"
"The least version that is in this range and not in the other one, or None if there is none. Raises ValueError if\n"
"the ranges have more than 3,000 sets together.\n"
"\n"
">>> Range('^1.2.3 || ^2').least_beyond(Range('^1.2.3'))\n"
"Version('2.0.0')\n"
">>> print(Range('1 - 2').least_beyond(Range('1 || 2')))\n"
"None\n"
">>> Range('1 - 2').least_beyond(Range('1 || 2'), include_prerelease=True)\n"
"Version('2.0.0-0')");

PyDoc_STRVAR(intervals_doc,
"intervals($self, /, *, include_prerelease=False)\n"
"--\n"
"\n"
"The intervals of keys that the range is, as tuples: the lower end, the upper end, and whether the interval is of\n"
"prereleases. A version is in the range exactly if `lower <= version.key < upper` for one of the intervals of its kind.\n"
"Those of one kind ascend and do not touch. With prereleases included, those of the versions for which `contains` is\n"
"true, each for both kinds.\n"
"\n"
">>> Range('1.2.3 - 1.2.5').intervals()\n"
"((b'\\x01\\x02\\x03\\xff', b'\\x01\\x02\\x05\\xff\\x00', False),)\n"
">>> [is_of_prereleases for _, _, is_of_prereleases in Range('^1.2.3-rc.4 || >=3').intervals()]\n"
"[False, False, True]");

PyDoc_STRVAR(sql_doc,
"sql($self, column, is_prerelease_column, /, *, placeholder='?', include_prerelease=False)\n"
"--\n"
"\n"
"A condition of SQL for the versions of a table that are in the range, and the keys for its placeholders. The table has\n"
"a column for `Version.key` and one for `Version.is_prerelease`; an index on the second and the first finds the rows. A\n"
"column is a name with ASCII letters, digits, `_` and `.` alone, and any other raises ValueError.\n"
"\n"
">>> where, keys = Range('^1').sql('key', 'is_prerelease')\n"
">>> where\n"
"'(is_prerelease = FALSE AND key >= ? AND key < ?)'\n"
">>> keys == (Version('1.0.0').key, Version('2.0.0-0').key)\n"
"True");

PyDoc_STRVAR(least_common_doc,
"least_common($self, other, /, *, include_prerelease=False)\n"
"--\n"
"\n"
"The least version that is in both ranges, or None if there is none. The least version of `self & other` may be a\n"
"prerelease that one of the two refuses. Raises ValueError if the ranges have more than 3,000 sets together.\n"
"\n"
">>> one, other = Range('^2.0.0-rc.1'), Range('>=1.5')\n"
">>> one.least_common(other), (one & other).min_version()\n"
"(Version('2.0.0'), Version('2.0.0-rc.1'))\n"
">>> print(Range('^1').least_common(Range('^2')))\n"
"None\n"
">>> one.least_common(other, include_prerelease=True)\n"
"Version('2.0.0-rc.1')");

#endif
