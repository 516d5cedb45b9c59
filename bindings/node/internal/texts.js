// SPDX-License-Identifier: Apache-2.0
// Texts as npm trims them, and the loose form of a version.
'use strict';

// The greatest length of a version text, as npm counts it.
const LONGEST_VERSION = 256;

const BLANK = 32;
const LAST_ASCII = 127;

// Whether a character of ASCII is no white space. There is none above the blank.
const isDark = (code) => code > BLANK && code <= LAST_ASCII;

// White space as npm reads it: none at the ends of a version; in a range also one blank for each run of it. To call `trim` takes longer than
// to look at the ends, and few texts need it.
function trimmedVersion(text) {
    const { length } = text;
    if (length > LONGEST_VERSION) {
        return '';
    }
    return isDark(text.charCodeAt(0)) && isDark(text.charCodeAt(length - 1)) ? text : text.trim();
}

function trimmedRange(text) {
    const trimmed = text.trim();
    return hasSingleBlanks(trimmed) ? trimmed : trimmed.split(/\s+/).join(' ');
}

// Whether all white space of a text is single blanks. A loop, since a regular expression takes longer on short texts.
function hasSingleBlanks(text) {
    let before = 0;
    for (let i = 0; i < text.length; i++) {
        const code = text.charCodeAt(i);
        if (code <= BLANK ? code !== BLANK || before === BLANK : code > LAST_ASCII) {
            return !/[^\S ]| {2}/.test(text);
        }
        before = code;
    }
    return true;
}

// ---- the loose form of a version ----

const DIGITS = /^\d+$/;
const IDENTIFIER = '(?:\\d+|\\d*[a-zA-Z-][a-zA-Z0-9-]*)';
const PRERELEASE = `-?(${IDENTIFIER}(?:\\.${IDENTIFIER})*)`;
const BUILD = '\\+([a-zA-Z0-9-]+(?:\\.[a-zA-Z0-9-]+)*)';
const LOOSE_VERSION = new RegExp(`^[v=\\s]*(\\d+)\\.(\\d+)\\.(\\d+)(?:${PRERELEASE})?(?:${BUILD})?$`);

const withoutZeros = (text) => (DIGITS.test(text) ? text.replace(/^0+(?=\d)/, '') : text);

// The text in the form of SemVer 2.0.0 of a trimmed version text in npm's loose form: `1.2.3-beta` of `=v 01.2.3beta`.
// The library reads what this returns; `''` if the text has another form.
function strictText(text) {
    const parts = LOOSE_VERSION.exec(text);
    if (parts === null) {
        return '';
    }
    const [, major, minor, patch, prerelease, build] = parts;
    const triple = [major, minor, patch].map(withoutZeros).join('.');
    const before = prerelease === undefined ? '' : `-${prerelease.split('.').map(withoutZeros).join('.')}`;
    return triple + before + (build === undefined ? '' : `+${build}`);
}

// ---- parts of a version text that the library has read ----

const withoutV = (text) => (text.charCodeAt(0) === 118 ? text.slice(1) : text);

function withoutBuild(text) {
    const plus = text.indexOf('+');
    return plus < 0 ? text : text.slice(0, plus);
}

module.exports = { LONGEST_VERSION, trimmedVersion, trimmedRange, strictText, withoutV, withoutBuild };
