// SPDX-License-Identifier: Apache-2.0
// What `--explain` writes: the sets of a range, and which prereleases satisfy them.
'use strict';

const native = require('../native.js');
const { flagsOf } = require('../options.js');
const { textKey } = require('../kept.js');
const { Range } = require('../range.js');
const { leastBeyond, leastCommon } = require('../ranges.js');
const { compare } = require('../versions.js');

const NO_VERSIONS = new Range('<0.0.0-0');

const isPrerelease = (version) => version !== null && version.prerelease.length > 0;
const isTriple = (one, other) => one.major === other.major && one.minor === other.minor && one.patch === other.patch;
const isLeastPrerelease = ({ prerelease }) => prerelease.length === 1 && prerelease[0] === 0;
const releaseText = ({ major, minor, patch }) => `${major}.${minor}.${patch}`;

// Whether a version is the next one after another: 1.2.4-0 after 1.2.3, and 1.2.3-rc.0 after 1.2.3-rc.
function isNext(version, before) {
    return isPrerelease(before)
        ? isTriple(version, before) && version.prerelease.join('.') === [...before.prerelease, 0].join('.')
        : isTriple(version, { major: before.major, minor: before.minor, patch: before.patch + 1 }) && isLeastPrerelease(version);
}

// Whether no version lies inside a set.
function isHollow({ lower, upper }) {
    if (upper.kind !== 'before') {
        return false;
    }
    if (lower.kind === 'start') {
        return releaseText(upper.version) === '0.0.0' && isLeastPrerelease(upper.version);
    }
    return lower.kind === 'after' && isNext(upper.version, lower.version);
}

// The release whose prereleases satisfy the range since a version at an end of it is one of them; `undefined` if none
// does. No prerelease is below `1.2.3-0`.
function openedBy(alone, version) {
    if (!isPrerelease(version)) {
        return undefined;
    }
    const release = releaseText(version);
    return leastCommon(alone, `>=${release}-0 <${release}`) === null ? undefined : release;
}

// The releases whose prereleases satisfy a set, in ascending order.
function openedIn(alone, { lower, upper }) {
    const below = openedBy(alone, lower.version);
    const above = upper.kind === 'before' && isLeastPrerelease(upper.version) ? undefined : openedBy(alone, upper.version);
    return [...new Set([below, above].filter((release) => release !== undefined))].sort(compare);
}

// Which prereleases satisfy a set, in words.
function noteOf(set, alone, includePrerelease) {
    if (includePrerelease) {
        return isHollow(set) ? 'no versions' : 'all prereleases inside';
    }
    if (leastBeyond(alone, NO_VERSIONS) === null) {
        return 'no versions';
    }
    const releases = openedIn(alone, set);
    return releases.length === 0 ? 'no prereleases' : `prereleases of ${releases.join(' and ')}`;
}

function lineOf(set, includePrerelease) {
    const alone = Range.fromSets([set]);
    return `${alone.raw}  ${noteOf(set, alone, includePrerelease)}\n`;
}

// ---- a text that is refused ----

// A byte in printable ASCII: a quotation mark and a backslash have a backslash in front, and others their number.
function shownByte(byte) {
    if (byte === 34 || byte === 92) {
        return `\\${String.fromCharCode(byte)}`;
    }
    return byte < 32 || byte > 126 ? `\\x${byte.toString(16).padStart(2, '0')}` : String.fromCharCode(byte);
}

const shown = (bytes) => Array.from(bytes, shownByte).join('');

// The text, and below it a mark at the byte where it is wrong.
function refusedLines(text, offset) {
    const bytes = Buffer.from(text);
    const before = shown(bytes.subarray(0, offset));
    return `${before}${shown(bytes.subarray(offset))}\n${' '.repeat(before.length)}^\n`;
}

// ---- ranges ----

// The lines of the range of a text, or the error if it is refused.
function explained(text, options) {
    const offset = native.refusedAt(textKey(text, flagsOf(options)));
    if (offset !== null) {
        return { said: refusedLines(text, offset) };
    }
    const range = new Range(text, options);
    return { written: range.sets.map((set) => lineOf(set, options.includePrerelease)).join('') };
}

module.exports = { explained };
