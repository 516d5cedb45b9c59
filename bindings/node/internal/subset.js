// SPDX-License-Identifier: Apache-2.0
// Whether each version that satisfies one range satisfies another, as npm decides it: by the comparators of one
// alternative of each. Each two versions are compared, and each version is tested, by the library.
'use strict';

const { ANY, Comparator } = require('./comparator.js');
const { Range } = require('./range.js');
const { satisfies } = require('./ranges.js');
const { compare } = require('./versions.js');
const { isSameText } = require('./words.js');

const isLower = ({ operator }) => operator === '>' || operator === '>=';
const isUpper = ({ operator }) => operator === '<' || operator === '<=';
const isAny = (comparators) => comparators.length === 1 && comparators[0].semver === ANY;
const release = [new Comparator('>=0.0.0')];
const prerelease = [new Comparator('>=0.0.0-0')];

// The tighter of two comparators in one direction; the first where they are the same.
function tighter(one, other, sign, options) {
    if (one === undefined) {
        return other;
    }
    const order = compare(one.semver, other.semver, options) * sign;
    const isOther = order < 0 || (order === 0 && other.operator.length === 1 && one.operator.length === 2);
    return isOther ? other : one;
}

const highest = (comparators, options) => comparators.filter(isLower)
    .reduce((most, one) => tighter(most, one, 1, options), undefined);
const lowest = (comparators, options) => comparators.filter(isUpper)
    .reduce((most, one) => tighter(most, one, -1, options), undefined);

const isSameTriple = (one, other) => one.major === other.major && one.minor === other.minor
    && one.patch === other.patch;

// Whether an alternative whose comparators include one version admits it, and each of the other alternative too; null if
// it admits nothing.
function isVersionInside({ semver }, { lower, upper }, dom, options) {
    const admits = (comparator) => satisfies(semver, String(comparator), options);
    if ((lower && !admits(lower)) || (upper && !admits(upper))) {
        return null;
    }
    return dom.every(admits);
}

// Whether an end of the one alternative is a prerelease for which the other has no comparator of the same three numbers.
function lacksPrerelease(end, dom) {
    if (!end || end.semver.prerelease.length === 0) {
        return false;
    }
    const { prerelease: identifiers } = end.semver;
    if (end.operator === '<' && identifiers.length === 1 && identifiers[0] === 0) {
        return false;
    }
    return !dom.some(({ semver }) => semver.prerelease?.length > 0 && isSameTriple(semver, end.semver));
}

// Whether an end lies inside what the comparators of the other alternative admit.
function isEndInside(end, sign, isSide, dom, options) {
    return dom.every((comparator) => {
        if (isSide(comparator)) {
            return tighter(end, comparator, sign, options) === end || comparator === end;
        }
        return end.operator.length === 1 || satisfies(end.semver, String(comparator), options);
    });
}

// Whether the ends of the one alternative lie inside the other.
function areEndsInside({ lower, upper, isOne }, dom, options) {
    const { includePrerelease } = options;
    if ((lower && !isEndInside(lower, 1, isLower, dom, options))
        || (upper && !isEndInside(upper, -1, isUpper, dom, options))) {
        return false;
    }
    if (!isOne && ((lower || upper) && dom.some(({ operator }) => operator === ''))) {
        return false;
    }
    if (!isOne && ((lower && !upper && dom.some(isUpper)) || (upper && !lower && dom.some(isLower)))) {
        return false;
    }
    return includePrerelease || (!lacksPrerelease(lower, dom) && !lacksPrerelease(upper, dom));
}

// Whether one alternative lies inside another; null if it admits nothing.
function isInside(sub, dom, options) {
    if (isAny(dom) && (isAny(sub) || options.includePrerelease)) {
        return true;
    }
    const ours = !isAny(sub) ? sub : options.includePrerelease ? prerelease : release;
    const theirs = isAny(dom) ? release : dom;
    const ends = { lower: highest(ours, options), upper: lowest(ours, options) };
    const versions = ours.filter(({ operator }) => operator === '');
    if (versions.length > 1) {
        return null;
    }
    if (ends.lower && ends.upper) {
        const order = compare(ends.lower.semver, ends.upper.semver, options);
        ends.isOne = order === 0;
        if (order > 0 || (ends.isOne && (ends.lower.operator !== '>=' || ends.upper.operator !== '<='))) {
            return null;
        }
    }
    return versions.length === 1 ? isVersionInside(versions[0], ends, theirs, options)
        : areEndsInside(ends, theirs, options);
}

// Alternatives that admit nothing do not count, unless all of the range are such.
function subset(sub, dom, options = {}) {
    if (sub === dom) {
        return true;
    }
    const [ours, theirs] = [new Range(sub, options).set, new Range(dom, options).set];
    let isEmpty = true;
    return ours.every((one) => {
        const isIn = theirs.some((other) => {
            const result = isSameText(one, other) || isInside(one, other, options);
            isEmpty = isEmpty && result === null;
            return result;
        });
        return isIn || isEmpty;
    });
}

module.exports = { subset };
