// SPDX-License-Identifier: Apache-2.0
// What `--help` writes: the text of the proved program.
'use strict';

const HELP = `Writes the valid versions that satisfy all ranges, a line each, in ascending order: npm's command semver.

Usage: semver [OPTIONS] [VERSION..]

A word that is no option is a version. One that is not valid is left out. A value may also be in the same word,
as in --range=^1.2.

If options stand alone, versions are read from standard input, a line each. The word - stands for standard input
among other versions, as in semver 1.2.3 - 2.0.0.

Options:
  -r, --range RANGE   Leave out versions that do not satisfy RANGE. May be given several times.
                      Example: semver --range '^1.2 || 3.x' 1.1.0 1.4.2 3.0.1
  -i, --inc, --increment [LEVEL]
                      Write the version after an increment: major, minor, patch, premajor, preminor, prepatch or
                      prerelease, or null if there is none. The default is patch. Of one version only, and with no
                      range.
                      Example: semver --inc minor 1.2.3
  --preid IDENTIFIER  Begin a new prerelease with this identifier.
                      Example: semver --inc prerelease --preid beta 1.2.3
  -n BASE             The number of a new prerelease: 0 or 1, or false for none. The default is 0.
                      Example: semver --inc prerelease --preid beta -n 1 1.2.3
  -c, --coerce        Take the version that is found in the text.
                      Example: semver --coerce release-1.2
  --rtl, --ltr        Look for it from the right, or from the left, which is the default.
                      Example: semver --coerce --rtl 1.2.3.4
  -l, --loose         Read ranges in loose form.
                      Example: semver --loose --range '>=01.2' 1.4.0
  -p, --include-prerelease
                      A prerelease satisfies a range that it lies in.
                      Example: semver --include-prerelease --range '>=1.2' 1.3.0-rc.1
  -rv, --rev, --reverse
                      Write the versions in descending order.
                      Example: semver --reverse 1.2.3 1.10.0
  --unsorted          Write the versions in the order they came, each as soon as it is read.
                      Example: semver --unsorted --range '^1.2' < versions.txt
  --least             Write only the least version. Of --unsorted, --least and --greatest the last one counts.
                      Example: semver --least --range '^1.2' 1.4.2 1.10.0 2.0.0
  --greatest          Write only the greatest version.
                      Example: semver --greatest --range '^1.2' 1.4.2 1.10.0 2.0.0
  --json              Write a JSON array of strings on one line.
                      Example: semver --json 1.10.0 1.2.3
  --explain           Write the sets of each RANGE, a line each, and which prereleases satisfy them. With no version.
                      Example: semver --explain --range '^1.2.3-rc.4 || 2.x'
  -v, --version VERSION
                      A version, also if it looks like an option.
  -h, -?, --help      Write this text.

The exit status is 0 if a version was written, or null for an increment, and 1 if none is valid and satisfies all
ranges. With --explain it is 1 if a RANGE is not valid; standard error then has a mark where it is wrong. It is 1
too, with a line on standard error, if --inc is given several versions or a range, or --explain a version. After
any other error it is 2, with a line on standard error.
`;

module.exports = { HELP };
