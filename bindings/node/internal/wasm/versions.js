// SPDX-License-Identifier: Apache-2.0
// Calls on one or two versions. A key of a version is its text, or the key that the library writes, in an object that holds it: of a
// version that no text writes.
'use strict';

const { codeAt, lengthOf, numberOf, set } = require('../builtins.js');
const { m, A, B, D, ANY, ANSWER, FAULT, OK, REFUSED, calls, check, enter, leave, view } = require('./memory.js');
const { outOfMemory, wrongType } = require('./errors.js');
const { SHORT, put, makeRoomFor, print, bytes, bufferOf } = require('./texts.js');

// What `compare`, `compareBuild` and `diff` return where the first key, or the second, is no version.
const [FIRST_REFUSED, SECOND_REFUSED] = [16, 17];
const INVALID_IDENTIFIER = 6;

const [DOT, ZERO, NINE, LETTER_V] = [46, 48, 57, 118];
const SMALL = 65536;
// A number of so many digits is one that JavaScript has, and that is allowed.
const MOST_DIGITS = 15;

// A version that no text writes: the bytes of its key, and its print.
class HeldVersion {
    constructor(key, text) {
        this.key = key;
        this.text = text;
    }
}

// A handle that is made empty.
function emptied(slot) {
    m.u32[slot >> 2] = 0;
    return slot;
}

function free(slot) {
    const handle = m.u32[slot >> 2];
    if (handle !== 0) {
        m.u32[slot >> 2] = 0;
        m.f.node_semver_version_free(handle);
    }
}

// Reads the text of so many bytes at a place, which may begin with a `v`.
function readAt(at, length, slot) {
    const skipped = length > 0 && m.u8[at] === LETTER_V ? 1 : 0;
    emptied(slot);
    const status = m.f.node_semver_version_parse_strict(at + skipped, length - skipped, slot, m.at + FAULT);
    view();
    return status === OK ? OK : check(status);
}

function readText(text, slot) {
    const length = put(0, text);
    return readAt(m.texts[0], length, slot);
}

// Reads back a version of its key.
function readHeld({ key }, slot) {
    const length = lengthOf(key);
    makeRoomFor(0, length);
    set(m.u8, key, m.texts[0]);
    emptied(slot);
    const status = check(m.f.node_semver_version_of_key(m.texts[0], length, slot));
    view();
    return status;
}

// Throws where a value is no key of a version: before a call, which would be broken off.
function checkVersion(key) {
    if (typeof key !== 'string' && !(key instanceof HeldVersion)) {
        throw wrongType('no key of a version');
    }
}

// Reads a key. The caller frees what is in the slot.
const read = (key, slot) => (typeof key === 'string' ? readText(key, slot) : readHeld(key, slot));

// A print of so many letters is read again for certain: none of its numbers has more than 15 digits.
const LONGEST_CERTAIN = 19;

// Takes the version. Its print is its key if it is read again as a version.
function keyOf(slot) {
    const text = print(m.f.node_semver_version_print, slot);
    if (text.length > LONGEST_CERTAIN) {
        const isRead = readAt(m.room, text.length, m.at + D) === OK;
        free(m.at + D);
        if (!isRead) {
            const key = bytes(m.f.node_semver_version_key, slot);
            if (lengthOf(key) === 0) {
                throw outOfMemory();
            }
            free(slot);
            return new HeldVersion(key, text);
        }
    }
    free(slot);
    return text;
}

function versionText(key) {
    checkVersion(key);
    return textOfKey(key);
}

const textOfKey = calls((key) => {
    const slot = m.at + A;
    if (read(key, slot) !== OK) {
        return null;
    }
    const text = print(m.f.node_semver_version_print, slot);
    free(slot);
    return key instanceof HeldVersion ? key.text : text;
});

// ---- the parts of a version ----

// The form of a version: a triple alone, or one with a prerelease or a build. LARGE is added where the numbers are not in the result.
const [IS_TRIPLE, HAS_MORE, LARGE, FORMS] = [1, 2, 4, 8];

const packed = (isLarge, numbers, form) => (isLarge ? LARGE + form : numbers * FORMS + form);

// The numbers and the form of what begins at a place of a text and goes up to its end. With IS_TRIPLE that is a version for certain: three
// numbers of at most 15 digits, without a zero before others. Else the library has read it as a version, or the result means nothing.
function parts(text, at) {
    const { length } = text;
    let number = 0;
    let numbers = 0;
    let digits = 0;
    let dots = 0;
    let isLarge = false;
    for (; at < length; at++) {
        const code = codeAt(text, at);
        if (code >= ZERO && code <= NINE) {
            if (digits === MOST_DIGITS || (number === 0 && digits !== 0)) {
                return LARGE + HAS_MORE;
            }
            number = number * 10 + code - ZERO;
            digits++;
            continue;
        }
        isLarge ||= number >= SMALL;
        numbers = numbers * SMALL + number;
        if (code !== DOT || digits === 0 || dots === 2) {
            return packed(isLarge, numbers, HAS_MORE);
        }
        number = 0;
        digits = 0;
        dots++;
    }
    const isTriple = dots === 2 && digits !== 0;
    return packed(isLarge || number >= SMALL, numbers * SMALL + number, isTriple ? IS_TRIPLE : HAS_MORE);
}

function partsOfHeld(key) {
    const status = read(key, m.at + A);
    free(m.at + A);
    return status === OK ? LARGE : 0;
}

// Where the version begins that was put as a text of so many bytes, or 0 if it is none. It may stand after a `v`.
function startOf(length) {
    const at = m.texts[0] + (length > 0 && m.u8[m.texts[0]] === LETTER_V ? 1 : 0);
    const end = m.texts[0] + length;
    return m.f.node_semver_contains_strict(m.at + ANY, at, end - at, m.at + ANSWER) === OK ? at : 0;
}

// The library reads all but triples: a call of it takes longer than to read one.
function partsOfText(text) {
    const found = parts(text, 0);
    if ((found & IS_TRIPLE) !== 0) {
        return found;
    }
    const start = startOf(put(0, text));
    return start === 0 ? 0 : start === m.texts[0] ? found : parts(text, 1);
}

// Whether a text is that of a version.
function isVersion(text) {
    if (typeof text !== 'string') {
        throw wrongType('no text of a version');
    }
    if ((parts(text, 0) & IS_TRIPLE) !== 0) {
        return true;
    }
    enter();
    return leave(startOf(put(0, text)) !== 0);
}

// 0 where the key is none. Otherwise one number that holds the form of the version and, where they are small, its three numbers. Of what no
// text writes it holds neither.
function readVersion(key) {
    checkVersion(key);
    enter();
    return leave(typeof key === 'string' ? partsOfText(key) : partsOfHeld(key));
}

// ---- two versions ----

// Reads both keys, at A and B: OK, or which key is refused.
function readBoth(one, other) {
    if (read(one, m.at + A) !== OK) {
        return FIRST_REFUSED;
    }
    if (read(other, m.at + B) !== OK) {
        free(m.at + A);
        return SECOND_REFUSED;
    }
    return OK;
}

function freeBoth(result) {
    free(m.at + A);
    free(m.at + B);
    return result;
}

// The numbers of a text that is a triple of small numbers, as `readVersion` returns them, or 0. No memory is allocated for them.
function tripleOf(key) {
    const found = typeof key === 'string' ? partsOfText(key) : 0;
    return (found & IS_TRIPLE + LARGE) === IS_TRIPLE ? found : 0;
}

// The order of two triples of small numbers is that of these numbers.
function orderOf(one, other, call) {
    const first = tripleOf(one);
    const second = first === 0 ? 0 : tripleOf(other);
    if (second !== 0) {
        return first === second ? 0 : first < second ? -1 : 1;
    }
    const refused = readBoth(one, other);
    return refused === OK ? freeBoth(call(m.at + A, m.at + B)) : refused;
}

// -1, 0 or 1, or which key is refused.
function compare(one, other) {
    checkVersion(one);
    checkVersion(other);
    enter();
    return leave(orderOf(one, other, m.f.node_semver_version_compare));
}

function compareBuild(one, other) {
    checkVersion(one);
    checkVersion(other);
    enter();
    return leave(orderOf(one, other, m.f.node_semver_version_compare_build));
}

// The number of the bump in node_semver.h, or which key is refused.
function diff(one, other) {
    checkVersion(one);
    checkVersion(other);
    enter();
    const refused = readBoth(one, other);
    return leave(refused === OK ? freeBoth(m.f.node_semver_version_diff(m.at + A, m.at + B)) : refused);
}

// ---- versions that are made ----

// The print of the version that a call has made at B; or the status for which it made none.
function made(status) {
    view();
    const result = check(status);
    if (result !== OK) {
        return result;
    }
    const text = print(m.f.node_semver_version_print, m.at + B);
    free(m.at + B);
    return text;
}

// The print of the version after the bump; or the status of node_semver.h for which there is none.
function bump(key, number, identifier, base) {
    checkVersion(key);
    return typeof identifier === 'string' ? bumped(key, Number(number), identifier, Number(base)) : INVALID_IDENTIFIER;
}

const bumped = calls((key, number, identifier, base) => {
    const slot = m.at + A;
    if (read(key, slot) !== OK) {
        return REFUSED;
    }
    const length = put(1, identifier);
    const result = made(m.f.node_semver_version_bump(slot, number, m.texts[1], length, base, emptied(m.at + B)));
    free(slot);
    return result;
});

// Where the first digit of a short text is: what stands before it is no part of a version.
function firstDigit(text) {
    let at = 0;
    for (; at < text.length && at < SHORT; at++) {
        const code = codeAt(text, at);
        if (code >= ZERO && code <= NINE) {
            break;
        }
    }
    return at;
}

// What `readVersion` returns of a triple of small numbers, or one with LARGE.
function numbersAt(slot) {
    const major = numberOf(m.f.node_semver_version_major(slot));
    const minor = numberOf(m.f.node_semver_version_minor(slot));
    const patch = numberOf(m.f.node_semver_version_patch(slot));
    const isLarge = major >= SMALL || minor >= SMALL || patch >= SMALL;
    return packed(isLarge, (major * SMALL + minor) * SMALL + patch, IS_TRIPLE);
}

// The version that is found in the text: where it is a triple of small numbers, what `readVersion` returns of it; else its print; or null. If
// full, it has the prerelease and the build that follow.
const coerce = calls((text, rtl, full) => {
    if (typeof text !== 'string') {
        return null;
    }
    const length = put(0, text, rtl ? 0 : firstDigit(text));
    const slot = emptied(m.at + B);
    const call = full ? m.f.node_semver_version_coerce_with_prerelease : m.f.node_semver_version_coerce;
    const status = check(call(m.texts[0], length, rtl ? 1 : 0, slot));
    view();
    if (status !== OK) {
        return null;
    }
    const numbers = full ? LARGE : numbersAt(slot);
    if ((numbers & LARGE) === 0) {
        free(slot);
        return numbers;
    }
    const printed = print(m.f.node_semver_version_print, slot);
    free(slot);
    const found = parts(printed, 0);
    return (found & IS_TRIPLE + LARGE) === IS_TRIPLE ? found : printed;
});

const keyBytes = calls((key) => {
    const slot = m.at + A;
    if (read(key, slot) !== OK) {
        return null;
    }
    const found = bytes(m.f.node_semver_version_key, slot);
    free(slot);
    if (lengthOf(found) === 0) {
        throw outOfMemory();
    }
    return found;
});

// The bytes that sort as versions do, or null where the key is refused.
function sortKey(key) {
    checkVersion(key);
    const found = keyBytes(key);
    return found === null ? null : bufferOf(found);
}

module.exports = {
    HeldVersion, checkVersion, emptied, free, read, readText, keyOf, versionText, readVersion, isVersion, compare, compareBuild,
    diff, bump, coerce, sortKey,
};
