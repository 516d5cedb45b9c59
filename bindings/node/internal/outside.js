// SPDX-License-Identifier: Apache-2.0
// Whether a version lies above or below all that a range admits, and the shortest range for a list, as npm decides them.
'use strict';

const { newList, add } = require('./builtins.js');
const { ANY, Comparator } = require('./comparator.js');
const { Range } = require('./range.js');
const { satisfies } = require('./ranges.js');
const { SemVer } = require('./semver.js');
const { compare } = require('./versions.js');

const SIGNS = new Map([['>', 1], ['<', -1]]);

// The highest and the lowest comparator of an alternative, seen from the side of the version.
function ends(comparators, sign, options) {
    let high;
    let low;
    for (const one of comparators) {
        const comparator = one.semver === ANY ? new Comparator('>=0.0.0') : one;
        high ??= comparator;
        low ??= comparator;
        if (compare(comparator.semver, high.semver, options) * sign > 0) {
            high = comparator;
        } else if (compare(comparator.semver, low.semver, options) * sign < 0) {
            low = comparator;
        }
    }
    return { high, low };
}

function outside(version, range, side, options) {
    const read = new SemVer(version, options);
    const wanted = new Range(range, options);
    const sign = SIGNS.get(side);
    if (sign === undefined) {
        throw new TypeError('Must provide a hilo val of "<" or ">"');
    }
    if (satisfies(read, wanted, options)) {
        return false;
    }
    return wanted.set.every((comparators) => {
        const { high, low } = ends(comparators, sign, options);
        if (high.operator === side || high.operator === `${side}=`) {
            return false;
        }
        const order = compare(read, low.semver) * sign;
        return low.operator === '' || low.operator === side ? order > 0 : low.operator !== `${side}=` || order >= 0;
    });
}

const gtr = (version, range, options) => outside(version, range, '>', options);
const ltr = (version, range, options) => outside(version, range, '<', options);

// ---- the shortest range ----

// The runs of versions in a sorted list that satisfy the range: the first and the last of each, and null for the last if
// the run goes to the end of the list.
function runs(list, range, options) {
    const found = newList();
    let run = null;
    for (const version of list) {
        if (satisfies(version, range, options)) {
            run ??= [version, version];
            run[1] = version;
        } else if (run !== null) {
            add(found, run);
            run = null;
        }
    }
    if (run !== null) {
        add(found, [run[0], null]);
    }
    return Array.from(found);
}

function textOfRun([from, to], first) {
    if (from === to) {
        return from;
    }
    if (to === null) {
        return from === first ? '*' : `>=${from}`;
    }
    return from === first ? `<=${to}` : `${from} - ${to}`;
}

function simplifyRange(versions, range, options) {
    const list = versions.sort((one, other) => compare(one, other, options));
    const text = runs(list, range, options).map((run) => textOfRun(run, list[0])).join(' || ');
    const original = typeof range.raw === 'string' ? range.raw : String(range);
    return text.length < original.length ? text : range;
}

module.exports = { outside, gtr, ltr, simplifyRange };
