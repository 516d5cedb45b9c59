// SPDX-License-Identifier: Apache-2.0
// The calls of the proved library. It gets a key for a version or a range: its text, or an object that holds what no text writes, or a
// range that is kept.
'use strict';

const { versionText, readVersion, isVersion, compare, compareBuild, diff, bump, coerce, sortKey } = require('./wasm/versions.js');
const { isKept, keep, forget, rangeText, sets, fromSets, refusedAt, satisfies } = require('./wasm/ranges.js');
const { intersect, difference, leastBeyond, leastCommon } = require('./wasm/pairs.js');
const { order, best, intervals } = require('./wasm/lists.js');

module.exports = {
    versionText, readVersion, isVersion, compare, compareBuild, diff, bump, coerce,
    rangeText, isKept, keep, forget, satisfies, best, order,
    intersect, difference, leastBeyond, leastCommon, sets, fromSets, sortKey, intervals, refusedAt,
};
