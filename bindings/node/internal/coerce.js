// SPDX-License-Identifier: Apache-2.0
// The version that a text holds somewhere: `1.2.0` of `release 1.2, of May`. The library finds it. With `loose` a number may
// have zeros in front, which the library does not have: then it is searched here.
'use strict';

const native = require('./native.js');
const { caught } = require('./errors.js');
const { isForeignSemVer } = require('./foreign.js');
const { parseOptions } = require('./options.js');
const { SemVer, semVerOfTriple } = require('./semver.js');
const { parse } = require('./versions.js');

const NUMBERS = '(^|[^\\d])(\\d{1,16})(?:\\.(\\d{1,16}))?(?:\\.(\\d{1,16}))?';
const IDENTIFIER = '(?:0|[1-9]\\d{0,256}|\\d{0,256}[a-zA-Z-][a-zA-Z0-9-]{0,250})';
const BUILD = '[a-zA-Z0-9-]{1,250}';
const MORE = `(?:-(${IDENTIFIER}(?:\\.${IDENTIFIER})*))?(?:\\+(${BUILD}(?:\\.${BUILD})*))?`;
const END = '(?:$|[^\\d])';

// The numbers alone, and with a prerelease and a build after them; each for one match and for one after the other.
const [FIRST, FIRST_FULL] = [NUMBERS + END, NUMBERS + MORE + END].map((source) => new RegExp(source));
const [NEXT, NEXT_FULL] = [FIRST, FIRST_FULL].map(({ source }) => new RegExp(source, 'g'));

// The match that ends last; of those that end at one place, the longest.
function lastMatch(text, pattern) {
    let found = null;
    pattern.lastIndex = 0;
    for (let next = pattern.exec(text); next !== null; next = pattern.exec(text)) {
        const end = (match) => match.index + match[0].length;
        if (found !== null && end(found) === text.length) {
            break;
        }
        if (found === null || end(next) !== end(found)) {
            found = next;
        }
        pattern.lastIndex = next.index + next[1].length + next[2].length;
    }
    return found;
}

// The SemVer of what the library has found: nothing, a triple of small numbers, or a text.
function semVerOf(found, options) {
    if (typeof found !== 'number') {
        return found === null ? null : parse(found, options);
    }
    try {
        return semVerOfTriple(found, options);
    } catch (error) {
        return caught(error, null);
    }
}

function coerce(version, options) {
    if (version instanceof SemVer) {
        return version;
    }
    const text = typeof version === 'number' ? String(version) : version;
    if (typeof text !== 'string') {
        return isForeignSemVer(version) ? parse(version, options) : null;
    }
    const { rtl, includePrerelease } = options || {};
    if (!parseOptions(options).loose) {
        // From the right it counts where a text ends: the library counts bytes, and npm characters.
        const counted = rtl ? text.replace(/[^\x00-\x7f]$/, ' ') : text;
        return semVerOf(native.coerce(counted, !!rtl, !!includePrerelease), options);
    }
    const match = rtl ? lastMatch(text, includePrerelease ? NEXT_FULL : NEXT)
        : (includePrerelease ? FIRST_FULL : FIRST).exec(text);
    if (match === null) {
        return null;
    }
    const [, , major, minor = '0', patch = '0', prerelease, build] = match;
    return parse(`${major}.${minor}.${patch}${prerelease ? `-${prerelease}` : ''}${build ? `+${build}` : ''}`, options);
}

module.exports = { coerce };
