// SPDX-License-Identifier: Apache-2.0
// Functions of one or two ranges.
'use strict';

const native = require('./native.js');
const { ANY } = require('./comparator.js');
const { caught } = require('./errors.js');
const { REFUSED, keptKey, rangeOfText } = require('./kept.js');
const { IS_LOOSE, flagsOf, optionsOf, parseOptions } = require('./options.js');
const { Range, keyOfRange, rangeOf, rangeOfKey } = require('./range.js');
const { SemVer, semVerOfKey } = require('./semver.js');
const { strictText, trimmedVersion } = require('./texts.js');
const { gt } = require('./versions.js');

function satisfies(version, range, options) {
    if (typeof version === 'string' && typeof range === 'string') {
        const flags = flagsOf(parseOptions(options));
        const text = trimmedVersion(version);
        const key = keptKey(range, flags);
        return key !== REFUSED && (native.satisfies(text, key) || (flags >= IS_LOOSE && native.satisfies(strictText(text), key)));
    }
    return rangeOf(range, options)?.test(version) ?? false;
}

const printOf = (range, options) => new Range(range, options).range || '*';

// The print of a range that is kept is kept too. Its text is read with options that run no code of a user.
function keptPrint(text, kept, flags) {
    if (kept === REFUSED) {
        return null;
    }
    kept.print ??= printOf(text, optionsOf(flags));
    return kept.print;
}

function validRange(range, options) {
    try {
        if (typeof range !== 'string') {
            return printOf(range, options);
        }
        const flags = flagsOf(parseOptions(options));
        const kept = rangeOfText(range, flags);
        return kept === undefined ? printOf(range, optionsOf(flags)) : keptPrint(range, kept, flags);
    } catch (error) {
        return caught(error, null);
    }
}

const toComparators = (range, options) => new Range(range, options).set
    .map((comparators) => comparators.map(({ value }) => value).join(' ').trim().split(' '));

// ---- the least version ----

// The least version that a comparator and all above it could admit, or `undefined` where it is no lower end.
function leastOf({ operator, semver }) {
    if (operator.startsWith('<') || semver === ANY) {
        return undefined;
    }
    const least = new SemVer(semver.version);
    if (operator === '>') {
        if (least.prerelease.length === 0) {
            least.patch++;
        } else {
            least.prerelease = [...least.prerelease, 0];
        }
        least.raw = least.format();
    }
    return least;
}

const greatest = (versions) => versions.reduce((most, one) => (most === undefined || gt(one, most) ? one : most),
    undefined);
const least = (versions) => versions.reduce((most, one) => (most === undefined || gt(most, one) ? one : most),
    undefined);

// npm's least version: 0.0.0 or 0.0.0-0 where the range admits it, else the least of what the alternatives begin with,
// where the range admits that.
function minVersion(range, options) {
    const wanted = new Range(range, options);
    const first = ['0.0.0', '0.0.0-0'].find((text) => wanted.test(text));
    if (first !== undefined) {
        return new SemVer(first);
    }
    const found = least(wanted.set.map((comparators) => greatest(comparators.map(leastOf).filter(Boolean)))
        .filter(Boolean));
    return found !== undefined && wanted.test(found) ? found : null;
}

// ---- two ranges ----

const intersects = (one, other, options) => new Range(one, options).intersects(new Range(other, options), options);

// The keys of two ranges. Throws where one is none.
const both = (one, other, options) => [keyOfRange(new Range(one, options)), keyOfRange(new Range(other, options))];

// The key that the library makes of two ranges, or null. It makes none of more than 1,000,000 pairs of sets, since the time
// grows with them.
function madeOf(call, one, other, options) {
    const key = call(...both(one, other, options));
    if (key === undefined) {
        throw Object.assign(new RangeError('the two ranges have more than 1,000,000 pairs of sets'),
            { code: 'ERR_OUT_OF_RANGE' });
    }
    return key;
}

const intersect = (one, other, options) => rangeOfKey(madeOf(native.intersect, one, other, options), options);
const difference = (one, other, options) => rangeOfKey(madeOf(native.difference, one, other, options), options);
const leastBeyond = (one, other, options) => semVerOfKey(madeOf(native.leastBeyond, one, other, options));
const leastCommon = (one, other, options) => semVerOfKey(native.leastCommon(...both(one, other, options)));

module.exports = {
    satisfies, validRange, toComparators, minVersion, intersects, intersect, difference, leastBeyond, leastCommon,
};
