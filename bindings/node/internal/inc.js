// SPDX-License-Identifier: Apache-2.0
// The next version. Of a text the library makes it. A SemVer, which is changed in place, takes npm's own steps, and so do
// identifiers that SemVer does not have, as `beta.1`, and texts of digits, which npm does not take for numbers here.
'use strict';

const native = require('./native.js');
const { BUMPS } = require('./bumps.js');
const { caught } = require('./errors.js');
const { compareIdentifiers } = require('./identifiers.js');
const { SemVer } = require('./semver.js');
const { trimmedVersion } = require('./texts.js');

const invalid = (reason) => new Error(`invalid increment argument: ${reason}`);

// The number after an identifier.
const numberOf = (identifierBase) => (Number(identifierBase) ? 1 : 0);

// ---- a SemVer ----

// What the release types do with the three numbers.
function raiseMajor(semVer) {
    if (semVer.minor !== 0 || semVer.patch !== 0 || semVer.prerelease.length === 0) {
        semVer.major++;
    }
    semVer.minor = 0;
    semVer.patch = 0;
}

function raiseMinor(semVer) {
    if (semVer.patch !== 0 || semVer.prerelease.length === 0) {
        semVer.minor++;
    }
    semVer.patch = 0;
}

function raisePatch(semVer) {
    if (semVer.prerelease.length === 0) {
        semVer.patch++;
    }
}

// The same as if there were no prerelease.
const anew = (call) => (semVer) => {
    semVer.prerelease = [];
    call(semVer);
};

// Raises the numbers for a release type without a prerelease. Returns false, and changes nothing, for another one.
function isRaised(semVer, release) {
    switch (release) {
        case 'major': raiseMajor(semVer); break;
        case 'minor': raiseMinor(semVer); break;
        case 'patch': raisePatch(semVer); break;
        default: return false;
    }
    semVer.prerelease = [];
    return true;
}

// Those with a prerelease, and whether it follows that of the old version.
const PRERELEASES = new Map([
    ['premajor', { raiseNumbers: anew(raiseMajor), isNext: false }],
    ['preminor', { raiseNumbers: anew(raiseMinor), isNext: false }],
    ['prepatch', { raiseNumbers: anew(raisePatch), isNext: false }],
    ['prerelease', { raiseNumbers: raisePatch, isNext: true }],
    ['pre', { raiseNumbers: () => {}, isNext: true }],
]);

// The list with its last number raised; without one, with the number `base` after it.
function withNextNumber(identifiers, base) {
    const place = identifiers.findLastIndex((value) => typeof value === 'number');
    return place < 0 ? [...identifiers, base]
        : identifiers.map((value, i) => (i === place ? value + 1 : value));
}

// The prerelease after another one.
function nextPrerelease(before, identifier, identifierBase) {
    const base = numberOf(identifierBase);
    if (!identifier && identifierBase === false) {
        throw invalid('identifier is empty');
    }
    const isSame = identifierBase === false && before.length > 0 && identifier === before.join('.');
    if (isSame && !before.some((value) => typeof value === 'number')) {
        throw invalid('identifier already exists');
    }
    const next = withNextNumber(before, base);
    if (!identifier || (compareIdentifiers(next[0], identifier) === 0 && !isNaN(next[1]))) {
        return next;
    }
    return identifierBase === false ? [identifier] : [identifier, base];
}

function raisePrerelease(semVer, release, identifier, identifierBase) {
    const type = PRERELEASES.get(release);
    if (type === undefined) {
        throw invalid(release);
    }
    const prerelease = nextPrerelease(type.isNext ? semVer.prerelease : [], identifier, identifierBase);
    type.raiseNumbers(semVer);
    semVer.prerelease = prerelease;
}

// Raises a SemVer in place. Its build stays.
function raise(semVer, release, identifier, identifierBase) {
    if (!isRaised(semVer, release)) {
        raisePrerelease(semVer, release, identifier, identifierBase);
    }
    const version = semVer.format();
    semVer.raw = semVer.build.length === 0 ? version : `${version}+${semVer.build.join('.')}`;
    return semVer;
}

// ---- a text ----

const NUMBERS = new Map(BUMPS.map((name, number) => [name, number]).slice(1));

// The number after an identifier, by the numbers of node_semver.h.
const NO_BASE = 2;
const baseOf = (identifierBase) => (identifierBase === false ? NO_BASE : numberOf(identifierBase));

// Whether the library and npm have the same of an identifier: a text of letters, digits and hyphens that is more than
// digits.
const isWord = (value) => typeof value === 'string' && /^(?=\d*[a-zA-Z-])[a-zA-Z0-9-]+$/.test(value);

// The length of the shortest text with a number that JavaScript does not have.
const LONG = '0.0.0-9007199254740992'.length;

// The text of the next version, for texts of which the library and npm have the same; else `undefined`.
function nextText(version, release, identifier, identifierBase) {
    const number = NUMBERS.get(release);
    const text = trimmedVersion(version);
    if (number === undefined || text.length >= LONG || (identifier && !isWord(identifier))) {
        return undefined;
    }
    const found = native.bump(text, number, identifier || '', baseOf(identifierBase));
    return typeof found === 'string' ? found : undefined;
}

function inc(version, release, options, identifier, identifierBase) {
    if (typeof options === 'string') {
        return inc(version, release, undefined, options, identifier);
    }
    try {
        const next = typeof version === 'string' && !options
            ? nextText(version, release, identifier, identifierBase) : undefined;
        if (next !== undefined) {
            return next;
        }
        const read = new SemVer(version instanceof SemVer ? version.version : version, options);
        return raise(read, release, identifier, identifierBase).version;
    } catch (error) {
        return caught(error, null);
    }
}

const { inc: method } = {
    inc(release, identifier, identifierBase) {
        return raise(this, release, identifier, identifierBase);
    },
};
Object.defineProperty(SemVer.prototype, 'inc', { value: method, configurable: true, writable: true });

module.exports = { inc };
