// SPDX-License-Identifier: Apache-2.0
// npm's versions and version ranges under the names of npm's `semver`, over the proved library node_semver.
'use strict';

const { coerce } = require('./internal/coerce.js');
const { Comparator } = require('./internal/comparator.js');
const {
    compareIdentifiers, rcompareIdentifiers, RELEASE_TYPES, SEMVER_SPEC_VERSION,
} = require('./internal/identifiers.js');
const { inc } = require('./internal/inc.js');
const { maxSatisfying, minSatisfying, rsort, sort } = require('./internal/lists.js');
const { re, src, t: tokens } = require('./internal/npm/re.js');
const { gtr, ltr, outside, simplifyRange } = require('./internal/outside.js');
const { Range } = require('./internal/range.js');
const {
    difference, intersect, intersects, leastBeyond, leastCommon, minVersion, satisfies, toComparators, validRange,
} = require('./internal/ranges.js');
const { SemVer } = require('./internal/semver.js');
const { subset } = require('./internal/subset.js');
const {
    clean, cmp, compare, compareBuild, compareLoose, diff, eq, gt, gte, key, lt, lte, major, minor, neq, parse,
    patch, prerelease, rcompare, valid,
} = require('./internal/versions.js');

module.exports = {
    // npm's, in npm's order.
    parse, valid, clean, inc, diff, major, minor, patch, prerelease, compare, rcompare, compareLoose, compareBuild, sort,
    rsort, gt, lt, eq, neq, gte, lte, cmp, coerce, Comparator, Range, satisfies, toComparators, maxSatisfying,
    minSatisfying, minVersion, validRange, outside, gtr, ltr, intersects, simplifyRange, subset, SemVer, re, src, tokens,
    SEMVER_SPEC_VERSION, RELEASE_TYPES, compareIdentifiers, rcompareIdentifiers,
    // Beside npm's.
    intersect, difference, leastBeyond, leastCommon, key,
};
