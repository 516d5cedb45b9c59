// SPDX-License-Identifier: Apache-2.0
// Functions of one or two versions.
'use strict';

const native = require('./native.js');
const { BUMPS } = require('./bumps.js');
const { caught } = require('./errors.js');
const { parseOptions } = require('./options.js');
const {
    FIRST_REFUSED, SemVer, compareSemVers, compareVersions, compareWithBuilds, keyOfSemVer, readVersion,
} = require('./semver.js');
const { trimmedVersion, withoutBuild, withoutV } = require('./texts.js');

function parse(version, options, throwErrors = false) {
    if (version instanceof SemVer) {
        return version;
    }
    try {
        return readVersion(version, options);
    } catch (error) {
        if (throwErrors) {
            throw error;
        }
        return caught(error, null);
    }
}

function valid(version, options) {
    if (typeof version === 'string') {
        const key = trimmedVersion(version);
        if (native.isVersion(key)) {
            return withoutBuild(withoutV(key));
        }
        if (!options && !parseOptions(options).loose) {
            return null;
        }
    }
    return parse(version, options)?.version ?? null;
}

function clean(version, options) {
    return valid(version.trim().replace(/^[=v]+/, ''), options);
}

const major = (version, options) => new SemVer(version, options).major;
const minor = (version, options) => new SemVer(version, options).minor;
const patch = (version, options) => new SemVer(version, options).patch;

function prerelease(version, options) {
    const parsed = parse(version, options);
    return parsed && parsed.prerelease.length ? parsed.prerelease : null;
}

// The bytes that sort as versions do, for a column of a database. Throws where this is no version.
function key(version, options) {
    const semVer = new SemVer(version, options);
    const bytes = native.sortKey(keyOfSemVer(semVer));
    if (bytes === null) {
        throw new TypeError(`Invalid Version: ${semVer}`);
    }
    return bytes;
}

const compare = (one, other, options) => compareVersions(one, other, options);

// The build counts where two versions are equal.
const compareBuild = (one, other, options) => compareWithBuilds(one, other, options);

const rcompare = (one, other, options) => compare(other, one, options);
const compareLoose = (one, other) => compare(one, other, true);
const eq = (one, other, options) => compare(one, other, options) === 0;
const neq = (one, other, options) => compare(one, other, options) !== 0;
const gt = (one, other, options) => compare(one, other, options) > 0;
const gte = (one, other, options) => compare(one, other, options) >= 0;
const lt = (one, other, options) => compare(one, other, options) < 0;
const lte = (one, other, options) => compare(one, other, options) <= 0;

const operators = new Map(Object.entries({
    '': eq, '=': eq, '==': eq, '!=': neq, '>': gt, '>=': gte, '<': lt, '<=': lte,
}));
const textOf = (version) => (typeof version === 'object' ? version.version : version);

function cmp(one, operator, other, options) {
    if (operator === '===' || operator === '!==') {
        return (textOf(one) === textOf(other)) === (operator === '===');
    }
    const call = operators.get(operator);
    if (call === undefined) {
        throw new TypeError(`Invalid operator: ${operator}`);
    }
    return call(one, other, options);
}

// ---- the release type between two versions ----

const NUMBERS = ['major', 'minor', 'patch'];

// npm's steps.
function diffOf(one, other) {
    const order = compareSemVers(one, other);
    if (order === 0) {
        return null;
    }
    const [high, low] = order > 0 ? [one, other] : [other, one];
    if (low.prerelease.length > 0 && high.prerelease.length === 0) {
        return !low.patch && !low.minor ? 'major' : high.patch ? 'patch' : high.minor ? 'minor' : 'major';
    }
    const name = NUMBERS.find((number) => one[number] !== other[number]);
    return high.prerelease.length === 0 ? name : name === undefined ? 'prerelease' : `pre${name}`;
}

// Of two texts the library says it.
function diff(one, other) {
    if (typeof one === 'string' && typeof other === 'string') {
        const found = native.diff(trimmedVersion(one), trimmedVersion(other));
        if (found < FIRST_REFUSED) {
            return BUMPS[found];
        }
    }
    return diffOf(parse(one, null, true), parse(other, null, true));
}

module.exports = {
    parse, valid, clean, major, minor, patch, prerelease,
    compare, rcompare, compareLoose, compareBuild, eq, neq, gt, gte, lt, lte, cmp, diff, key,
};
