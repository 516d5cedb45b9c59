// SPDX-License-Identifier: Apache-2.0
// Ranges and versions that are made of two ranges.
'use strict';

const { m, A, B, C, OK, calls, check, view } = require('./memory.js');
const { checkRange, last, letGo, read, keyOf } = require('./ranges.js');
const { emptied, keyOf: keyOfVersion } = require('./versions.js');

// How many pairs of sets two ranges have at most of which a range is made. A range that is made of both may have a set for each pair,
// and the least version of the one beyond the other is looked for in each.
const MOST_PAIRS = 1000000;

const countOf = (slot) => m.f.node_semver_range_set_count(slot) >>> 0;
const areFew = (left, right) => countOf(left) <= MOST_PAIRS / countOf(right);

// A call on the ranges of two keys; null where one is refused. What is made of both includes prereleases where both do.
function ofTwo(call) {
    const called = calls((one, other) => {
        const left = read(one, 0, m.at + A);
        const { isOwn, isIncluded } = last;
        if (left === 0) {
            return null;
        }
        const right = read(other, 1, m.at + B);
        const isOtherOwn = last.isOwn;
        const result = right === 0 ? null : call(left, right, isIncluded && last.isIncluded);
        letGo(left, isOwn);
        if (right !== 0) {
            letGo(right, isOtherOwn);
        }
        return result;
    });
    return (one, other) => {
        checkRange(one);
        checkRange(other);
        return called(one, other);
    };
}

// What a function of the module makes at C, as a key; null where there is none.
function made(call, left, right, keyOfMade) {
    const status = check(call(left, right, emptied(m.at + C)));
    view();
    return status === OK ? keyOfMade(m.at + C) : null;
}

const rangeOf = (name) => ofTwo((left, right, isIncluded) => (areFew(left, right)
    ? made(m.f[name], left, right, (slot) => keyOf(slot, isIncluded)) : undefined));

const versionOf = (name, isLimited) => ofTwo((left, right, isIncluded) => (!isLimited || areFew(left, right)
    ? made(m.f[isIncluded ? `${name}_with_prereleases` : name], left, right, keyOfVersion) : undefined));

// The key of the new range or version, or null if there is none; all but `leastCommon` return undefined for too many pairs of sets.
module.exports = {
    intersect: rangeOf('node_semver_range_intersect'),
    difference: rangeOf('node_semver_range_difference'),
    leastBeyond: versionOf('node_semver_least_beyond', true),
    leastCommon: versionOf('node_semver_range_least_common', false),
};
