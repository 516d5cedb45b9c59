// SPDX-License-Identifier: Apache-2.0
// Calls on a range. A key of a range is its text, after a digit that is the sum of its options; or an object that holds this text, and a
// place where the range may be kept; or the cuts of its sets, in an object that holds them: of a range that no text writes.
'use strict';

const { newList, add, codeAt, fill, listOf } = require('../builtins.js');
const {
    m, A, B, C, D, ANSWER, FAULT, OK, PLACE, PLACES, REFUSED, allocate, calls, check, enter, leave, view,
} = require('./memory.js');
const { wrongType } = require('./errors.js');
const { put, print } = require('./texts.js');
const { HeldVersion, checkVersion, emptied, free: freeVersion, keyOf: keyOfVersion, read: readVersion } = require('./versions.js');

const [INCLUDES_PRERELEASES, IS_LOOSE] = [1, 2];
const DIGIT_0 = 48;
const LETTER_V = 118;

// A range that is kept at a place, while no other is kept there: then it is read of its text at each call. What else the package keeps of
// it is its print.
class KeptRange {
    constructor(key, place) {
        this.key = key;
        // (its first letter is asked of the whole text, which is then no longer a part of another)
        this.isIncluded = (codeAt(key, 0) & INCLUDES_PRERELEASES) !== 0;
        this.place = place;
        this.print = undefined;
    }
}

// A range that no text writes: its cuts, each as its kind and the key of its version or null.
class HeldRange {
    constructor(cuts, isIncluded) {
        this.cuts = cuts;
        this.isIncluded = isIncluded;
    }
}

function free(slot) {
    const handle = m.u32[slot >> 2];
    if (handle !== 0) {
        m.u32[slot >> 2] = 0;
        m.f.node_semver_range_free(handle);
    }
}

// Reads the text of so many bytes at a place.
function readAt(at, length, options, slot) {
    emptied(slot);
    if (!(options >= 0 && options <= (INCLUDES_PRERELEASES | IS_LOOSE))) {
        return REFUSED;
    }
    const status = m.f.node_semver_range_parse_npm(at, length, options & IS_LOOSE ? 1 : 0, options & INCLUDES_PRERELEASES, slot,
        m.at + FAULT);
    view();
    return status === OK ? OK : check(status);
}

// ---- sets ----

const SET_SIZE = 32;
const CUT_SIZE = 16;
const VERSION = 8;

// Puts cuts into memory of their own, and calls with it. Throws where they are none.
function withCuts(cuts, call) {
    const count = cuts.length / 4 >>> 0;
    const at = allocate(SET_SIZE * count + SET_SIZE);
    fill(m.u8, 0, at, at + SET_SIZE * count);
    let status = OK;
    for (let i = 0; i < 2 * count && status === OK; i++) {
        const key = cuts[2 * i + 1];
        m.u32[at + CUT_SIZE * i >> 2] = cuts[2 * i];
        status = key === null ? OK : readVersion(key, at + CUT_SIZE * i + VERSION);
    }
    const result = status === OK ? call(at, count) : status;
    view();
    for (let i = 0; i < 2 * count; i++) {
        freeVersion(at + CUT_SIZE * i + VERSION);
    }
    m.f.heap_free(at);
    return result;
}

const readCuts = (cuts, slot) => withCuts(cuts, (at, count) => check(m.f.node_semver_range_from_sets(at, count, emptied(slot))));

// Adds the kind of a cut and the key of its version or null, as two elements, to a list.
function addCut(cuts, cut) {
    add(cuts, m.u32[cut >> 2]);
    add(cuts, m.u32[cut + VERSION >> 2] === 0 ? null : keyOfVersion(cut + VERSION));
}

// The cuts of a range, each as two elements: its kind, and the key of its version or null.
function cutsOf(slot) {
    const count = m.f.node_semver_range_set_count(slot) >>> 0;
    const cuts = newList();
    const at = allocate(SET_SIZE);
    for (let i = 0; i < count; i++) {
        fill(m.u8, 0, at, at + SET_SIZE);
        check(m.f.node_semver_range_set(slot, i, at));
        view();
        addCut(cuts, at);
        addCut(cuts, at + CUT_SIZE);
    }
    m.f.heap_free(at);
    return cuts;
}

// ---- the ranges that are kept ----

// The ranges of the places. A new instance has read none of them: it reads each where it is asked for.
const kept = newList();

const isKept = (range) => kept[range.place] === range;
const isPlace = (place) => (place >>> 0) === place && place < PLACES;

const slotOf = (place) => m.at + PLACE + 8 * place;

// The slot of a range that is kept.
function keptSlot({ key, place }) {
    const slot = slotOf(place);
    return m.u32[slot >> 2] !== 0 || readKey(key, 1, slot) !== 0 ? slot : 0;
}

// Reads the range of a key of a text, and keeps it at a place. If the text is refused, returns null and leaves the place empty; and so if it
// throws.
function keep(key, place) {
    if (typeof key !== 'string' || !isPlace(place)) {
        throw wrongType('no text or no place');
    }
    enter();
    const slot = slotOf(place);
    kept[place] = undefined;
    free(slot);
    if (readKey(key, 0, slot) === 0) {
        return leave(null);
    }
    const range = new KeptRange(key, place);
    kept[place] = range;
    return leave(range);
}

// Leaves so many places empty, from one on.
const forget = calls((first, count) => {
    for (let place = first; place < first + count && isPlace(place); place++) {
        kept[place] = undefined;
        free(slotOf(place));
    }
});

// ---- keys ----

// What the key that was read last says of its range: whether prereleases are included, and whether the call frees it.
const last = { isIncluded: false, isOwn: false };

// Reads a key of a text. Returns the slot, or 0 where it is refused.
function readKey(key, which, slot) {
    const length = put(which, key);
    const options = length === 0 ? -1 : m.u8[m.texts[which]] - DIGIT_0;
    last.isIncluded = (options & INCLUDES_PRERELEASES) !== 0;
    return readAt(m.texts[which] + 1, length - 1, options, slot) === OK ? slot : 0;
}

// Throws where a value is no key of a range: before a call, which would be broken off.
function checkRange(key) {
    if (!(key instanceof KeptRange) && typeof key !== 'string' && !(key instanceof HeldRange)) {
        throw wrongType('no key of a range');
    }
}

// Reads a key: the slot of its range, or 0 where it is refused.
function read(key, which, slot) {
    if (key instanceof KeptRange) {
        last.isOwn = !isKept(key);
        last.isIncluded = key.isIncluded;
        return last.isOwn ? readKey(key.key, which, slot) : keptSlot(key);
    }
    last.isOwn = true;
    if (typeof key === 'string') {
        return readKey(key, which, slot);
    }
    last.isIncluded = key.isIncluded;
    return readCuts(key.cuts, slot) === OK ? slot : 0;
}

function letGo(slot, isOwn) {
    if (isOwn) {
        free(slot);
    }
}

// A call on the range of a key; null where that is refused.
function ofOne(call) {
    const called = calls((key) => {
        const slot = read(key, 0, m.at + A);
        if (slot === 0) {
            return null;
        }
        const { isOwn, isIncluded } = last;
        const result = call(slot, isIncluded);
        letGo(slot, isOwn);
        return result;
    });
    return (key) => {
        checkRange(key);
        return called(key);
    };
}

// Takes the range. Its print is its key where that is read again as the same range.
function keyOf(slot, isIncluded) {
    const text = print(m.f.node_semver_range_print, slot);
    const again = m.at + D;
    const isSame = readAt(m.room, text.length, isIncluded ? INCLUDES_PRERELEASES : 0, again) === OK
        && m.f.node_semver_range_equals(slot, again) !== 0;
    free(again);
    const key = isSame ? (isIncluded ? '1' : '0') + text : new HeldRange(cutsOf(slot), isIncluded);
    free(slot);
    return key;
}

const rangeText = ofOne((slot) => print(m.f.node_semver_range_print, slot));
const sets = ofOne(cutsOf);

const ofCuts = calls((cuts) => (readCuts(cuts, m.at + C) === OK ? keyOf(m.at + C, false) : null));

// The key of the range of such cuts, or null where it is none.
function fromSets(cuts) {
    const list = listOf(cuts);
    for (let i = 0; i < list.length; i += 2) {
        if (list[i + 1] !== null) {
            checkVersion(list[i + 1]);
        }
        list[i] = Number(list[i]);
    }
    return ofCuts(list);
}

// The byte offset at which the text of a key is refused; null where it is read.
function refusedAt(key) {
    if (typeof key !== 'string') {
        throw wrongType('no text');
    }
    return placeOfFault(key);
}

const placeOfFault = calls((text) => {
    const fault = m.at + FAULT;
    m.u32[fault + 8 >> 2] = 0;
    if (readKey(text, 0, m.at + A) === 0) {
        return m.u32[fault + 8 >> 2];
    }
    free(m.at + A);
    return null;
});

// ---- a version in a range ----

// Whether the version of a text of so many bytes at a place satisfies the range; false for any other text.
function admitsAt(slot, isIncluded, at, length) {
    const skipped = length > 0 && m.u8[at] === LETTER_V ? 1 : 0;
    const answer = m.at + ANSWER;
    const call = isIncluded ? m.f.node_semver_contains_strict : m.f.node_semver_satisfies_strict;
    return call(slot, at + skipped, length - skipped, answer) === OK && m.u8[answer] !== 0;
}

function admitsText(slot, isIncluded, text) {
    const length = put(0, text);
    return admitsAt(slot, isIncluded, m.texts[0], length);
}

function admitsHeld(slot, isIncluded, version) {
    const at = m.at + A;
    if (readVersion(version, at) !== OK) {
        return false;
    }
    const result = (isIncluded ? m.f.node_semver_range_contains : m.f.node_semver_satisfies)(slot, at) !== 0;
    freeVersion(at);
    return result;
}

function admits(version, range) {
    const slot = read(range, 1, m.at + B);
    if (slot === 0) {
        return false;
    }
    const { isOwn, isIncluded } = last;
    const result = version instanceof HeldVersion ? admitsHeld(slot, isIncluded, version) : admitsText(slot, isIncluded, version);
    letGo(slot, isOwn);
    return result;
}

// False too where one is refused.
function satisfies(version, range) {
    checkVersion(version);
    checkRange(range);
    enter();
    return leave(admits(version, range));
}

module.exports = {
    last, checkRange, read, letGo, ofOne, keyOf, admitsText, isKept, keep, forget, rangeText, sets, fromSets, refusedAt, satisfies,
};
