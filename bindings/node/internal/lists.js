// SPDX-License-Identifier: Apache-2.0
// Functions of a list of versions. Each element is read once, as npm does, and before the library is called with all of them: so
// nothing of a user's runs in between.
'use strict';

const native = require('./native.js');
const { newList, Numbers, add } = require('./builtins.js');
const { parseOptions } = require('./options.js');
const { callKey, rangeOf } = require('./range.js');
const {
    SemVer, compareSemVersWithBuilds, compareVersions, compareWithBuilds, keyOfSemVer, numberOfTriple,
} = require('./semver.js');
const { sortPlaces } = require('./sort.js');
const { strictText, trimmedVersion } = require('./texts.js');

// ---- sort ----

const byBuild = (options) => (one, other) => compareWithBuilds(one, other, options);
const byBuildDown = (options) => (one, other) => compareWithBuilds(other, one, options);
const sortArray = Array.prototype.sort;

// The elements of an array but `undefined`, and how many places have an element.
function elements(list) {
    const values = newList();
    const { length } = list;
    let count = 0;
    for (let i = 0; i < length; i++) {
        if (i in list) {
            const value = list[i];
            count++;
            if (value !== undefined) {
                add(values, value);
            }
        }
    }
    return { values, count, length };
}

// The key of a version of a list. Throws if it is neither a text nor a SemVer.
function keyOf(version, options) {
    if (typeof version !== 'string') {
        return keyOfSemVer(new SemVer(version, options));
    }
    const key = trimmedVersion(version);
    return parseOptions(options).loose ? strictText(key) || key : key;
}

// The keys of texts and SemVers; or `undefined` where a value is neither, or no text writes a version.
function keysOf(versions, options) {
    const keys = newList();
    for (let i = 0; i < versions.length; i++) {
        if (typeof versions[i] !== 'string' && !(versions[i] instanceof SemVer)) {
            return undefined;
        }
    }
    for (let i = 0; i < versions.length; i++) {
        const key = keyOf(versions[i], options);
        if (typeof key !== 'string') {
            return undefined;
        }
        add(keys, key);
    }
    return keys;
}

// The places of SemVers in the order of their fields. Most are compared by a number that holds the three of a triple.
function placesOfSemVers(versions, options, isDescending) {
    const read = newList();
    const numbers = new Numbers(versions.length);
    for (let i = 0; i < versions.length; i++) {
        add(read, new SemVer(versions[i], options));
        numbers[i] = numberOfTriple(read[i]);
    }
    const ascending = (one, other) => numbers[one] - numbers[other] || compareSemVersWithBuilds(read[one], read[other]);
    return sortPlaces(versions.length, isDescending ? (one, other) => ascending(other, one) : ascending);
}

function areSemVers(versions) {
    for (let i = 0; i < versions.length; i++) {
        if (!(versions[i] instanceof SemVer)) {
            return false;
        }
    }
    return true;
}

// The places of versions in their order: of SemVers by their fields, else as the library finds it; or `undefined`.
function placesInOrder(versions, options, isDescending) {
    if (areSemVers(versions)) {
        return placesOfSemVers(versions, options, isDescending);
    }
    const keys = keysOf(versions, options);
    const order = keys === undefined ? undefined : native.order(keys, isDescending);
    return typeof order === 'object' ? order : undefined;
}

// The versions in order.
function ordered(versions, options, isDescending) {
    const places = versions.length > 1 ? placesInOrder(versions, options, isDescending) : undefined;
    if (places === undefined) {
        return Array.from(versions).sort((isDescending ? byBuildDown : byBuild)(options));
    }
    const list = newList();
    for (let i = 0; i < versions.length; i++) {
        add(list, versions[places[i]]);
    }
    return list;
}

// Sorts in place, as npm does: builds too, equal versions in the order in which they stood, then `undefined`, and last
// the places without an element. A list of one place is not read.
function sorted(list, options, isDescending) {
    if (!Array.isArray(list) || list.sort !== sortArray) {
        return list.sort((isDescending ? byBuildDown : byBuild)(options));
    }
    if (list.length < 2) {
        return list;
    }
    const { values, count, length } = elements(list);
    const versions = ordered(values, options, isDescending);
    for (let i = 0; i < length; i++) {
        if (i < count) {
            list[i] = versions[i];
        } else {
            delete list[i];
        }
    }
    return list;
}

const sort = (list, options) => sorted(list, options, false);
const rsort = (list, options) => sorted(list, options, true);

// ---- the best ----

const { forEach, slice } = Array.prototype;

// The elements that `forEach` passes. A plain array is copied, which takes less time; a place without an element is then
// `undefined`, which satisfies no range.
function elementsOf(versions) {
    if (Array.isArray(versions) && versions.constructor === Array && versions.forEach === forEach) {
        return slice.call(versions);
    }
    const list = newList();
    versions.forEach((version) => { add(list, version); });
    return list;
}

// The texts of the elements as `test` reads them, or `undefined` if one has none. It may run code of a user.
function testedTexts(list, options) {
    const texts = newList();
    for (let i = 0; i < list.length; i++) {
        const text = list[i] ? keyOf(list[i], options) : '';
        if (typeof text !== 'string') {
            return undefined;
        }
        add(texts, text);
    }
    return texts;
}

// One after the other.
function bestOf(list, range, options, isGreatest) {
    let found = null;
    for (let i = 0; i < list.length; i++) {
        const version = list[i];
        if (range.test(version)) {
            const order = found === null ? 1 : compareVersions(version, found, options) * (isGreatest ? 1 : -1);
            found = order > 0 ? version : found;
        }
    }
    return found;
}

function best(versions, range, options, isGreatest) {
    const wanted = rangeOf(range, options);
    if (wanted === undefined) {
        return null;
    }
    const list = elementsOf(versions);
    const texts = testedTexts(list, options);
    if (texts === undefined) {
        return bestOf(list, wanted, options, isGreatest);
    }
    const place = native.best(texts, callKey(wanted), isGreatest);
    return place < 0 ? null : list[place];
}

const maxSatisfying = (versions, range, options) => best(versions, range, options, true);
const minSatisfying = (versions, range, options) => best(versions, range, options, false);

module.exports = { sort, rsort, maxSatisfying, minSatisfying };
