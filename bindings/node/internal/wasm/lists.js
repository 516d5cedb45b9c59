// SPDX-License-Identifier: Apache-2.0
// Calls on lists of versions, and the intervals of keys that a range is.
'use strict';

const { newList, Words, add, fill, listOf } = require('../builtins.js');
const { sortPlaces } = require('../sort.js');
const { wrongType } = require('./errors.js');
const { m, ANSWER, B, C, OK, allocate, calls, check, view } = require('./memory.js');
const { bytes, bufferOf } = require('./texts.js');
const { admitsText, checkRange, last, letGo, ofOne, read } = require('./ranges.js');
const { emptied, free, readText } = require('./versions.js');

const HANDLE = 8;

// A list of texts. Throws where a value is none.
function textsOf(values) {
    const texts = listOf(values);
    for (let i = 0; i < texts.length; i++) {
        if (typeof texts[i] !== 'string') {
            throw wrongType('no text');
        }
    }
    return texts;
}

// Memory for so many handles, which are empty.
function handles(count) {
    const at = allocate(HANDLE * count + HANDLE);
    fill(m.u8, 0, at, at + HANDLE * count);
    return at;
}

function letAllGo(at, count) {
    for (let i = 0; i < count; i++) {
        free(at + HANDLE * i);
    }
    m.f.heap_free(at);
}

// The places of versions, whose handles lie from here on, in their order.
function placesInOrder(at, count, isDescending) {
    const by = m.f.node_semver_version_compare_build;
    return isDescending ? sortPlaces(count, (one, other) => by(at + HANDLE * other, at + HANDLE * one))
        : sortPlaces(count, (one, other) => by(at + HANDLE * one, at + HANDLE * other));
}

const orderOf = calls((texts, isDescending) => {
    const count = texts.length;
    const at = handles(count);
    let read = 0;
    while (read < count && readText(texts[read], at + HANDLE * read) === OK) {
        read++;
    }
    const result = read === count ? placesInOrder(at, count, isDescending) : read;
    letAllGo(at, read);
    return result;
});

// The places of texts in the order of their versions and builds, or the place of the first that is no version. Of equal versions the
// first stays first.
const order = (texts, isDescending) => orderOf(textsOf(texts), isDescending);

const chooser = (isIncluded, isGreatest) => m.f[`node_semver_${isGreatest ? 'max' : 'min'}_satisfying${isIncluded ? '_with_prereleases' : ''}`];

const bestOf = calls((texts, key, isGreatest) => {
    const range = read(key, 1, m.at + B);
    if (range === 0) {
        return -1;
    }
    const { isOwn, isIncluded } = last;
    const at = handles(texts.length);
    const places = new Words(texts.length);
    let count = 0;
    for (let i = 0; i < texts.length; i++) {
        if (admitsText(range, isIncluded, texts[i])) {
            readText(texts[i], at + HANDLE * count);
            places[count++] = i;
        }
    }
    const isFound = chooser(isIncluded, isGreatest)(at, count, range, m.at + ANSWER) !== 0;
    letAllGo(at, count);
    letGo(range, isOwn);
    return isFound ? places[m.u32[m.at + ANSWER >> 2]] : -1;
});

// The place of the text with the greatest or the least version that satisfies the range, or -1. Of equal versions it is the first. What
// is no version is left out.
function best(texts, key, isGreatest) {
    checkRange(key);
    return bestOf(textsOf(texts), key, isGreatest);
}

// Adds the intervals, each as its two ends and its kind.
function addIntervals(found, at, count, isOfPrereleases) {
    for (let i = 0; i < count; i++) {
        add(found, bytes(m.f.node_semver_interval_lower, at, i));
        add(found, bytes(m.f.node_semver_interval_upper, at, i));
        add(found, isOfPrereleases ?? m.f.node_semver_interval_is_of_prereleases(at, i) !== 0);
    }
}

const endsOf = ofOne((slot, isIncluded) => {
    const at = m.at + C;
    const call = isIncluded ? m.f.node_semver_range_intervals_with_prereleases : m.f.node_semver_range_intervals;
    const status = check(call(slot, emptied(at)));
    view();
    if (status !== OK) {
        return null;
    }
    const count = m.f.node_semver_intervals_count(at) >>> 0;
    const found = newList();
    addIntervals(found, at, count, isIncluded ? false : undefined);
    if (isIncluded) {
        addIntervals(found, at, count, true);
    }
    m.f.node_semver_intervals_free(m.u32[at >> 2]);
    emptied(at);
    return found;
});

// Three elements for each interval: its lower end, its upper end, and whether it is of prereleases. With prereleases included each is
// there for both kinds.
function intervals(key) {
    const found = endsOf(key);
    for (let i = 0; found !== null && i < found.length; i += 3) {
        found[i] = bufferOf(found[i]);
        found[i + 1] = bufferOf(found[i + 1]);
    }
    return found;
}

module.exports = { order, best, intervals };
