// SPDX-License-Identifier: Apache-2.0
// What the library returns for what was typed, as plain values and, for the picture, versions that live as long as the question.

const MOST_SETS = 5000; // More sets are counted, and not listed.

const isAbove = (library, { kind, at }, version) => kind === 'start' || (kind !== 'end' && library.compare(version, at) >= (kind === 'before' ? 0 : 1));
const isBelow = (library, { kind, at }, version) => kind === 'end' || (kind !== 'start' && library.compare(version, at) <= (kind === 'after' ? 0 : -1));

const opens = (library, { at }, triple) => at !== undefined && library.isPrerelease(at) && library.triple(at) === triple;

// The set that a version lies in, and else the nearest ones: the highest below it and the lowest above it.
function placeOf(library, sets, { at, isPrerelease, triple }) {
    const place = {};
    for (const set of sets) {
        if (!isAbove(library, set.lower, at)) {
            if (!place.above || library.compare(set.lower.at, place.above.lower.at) < 0) {
                place.above = set;
            }
        } else if (!isBelow(library, set.upper, at)) {
            if (!place.below || library.compare(set.upper.at, place.below.upper.at) > 0) {
                place.below = set;
            }
        } else if (!place.inside || (isPrerelease && [set.lower, set.upper].some((cut) => opens(library, cut, triple)))) {
            place.inside = set;
        }
    }
    return place;
}

// Reads a version as npm does: in strict form too, a `v` may stand before it.
function readVersion(library, text, isLoose) {
    const mark = !isLoose && text.startsWith('v') ? 1 : 0;
    const read = library.version(text.slice(mark), isLoose);
    return read.at === undefined ? { ...read, offset: read.offset + mark } : read;
}

function versionOf(library, range, sets, text, { isLoose, isIncluded }) {
    const read = readVersion(library, text, isLoose);
    if (read.at === undefined) {
        return { text, refused: read };
    }
    const version = { text, at: read.at, print: library.versionText(read.at), isPrerelease: library.isPrerelease(read.at), triple: library.triple(read.at) };
    if (range !== undefined) {
        version.isAdmitted = library.isAdmitted(range, read.at, isIncluded);
        version.place = placeOf(library, sets, version);
    }
    return version;
}

// The greatest of the admitted versions: of equal ones the first.
function highestOf(library, versions) {
    return versions.filter(({ isAdmitted }) => isAdmitted)
        .reduce((best, version) => (best && library.compare(version.at, best.at) <= 0 ? best : version), undefined);
}

function listed(library, range) {
    return range === undefined ? undefined : { text: library.rangeText(range), sets: library.sets(range, MOST_SETS), count: library.countOfSets(range) };
}

// How the Rust crate reads the text, if it reads it otherwise than npm does.
function crateReading(library, text, range) {
    const read = library.crateRange(text);
    if (read.at === undefined) {
        return range === undefined ? undefined : { isRefused: true };
    }
    return range !== undefined && library.areEqual(range, read.at) ? undefined : listed(library, read.at);
}

// What there is beside a second range: what both have, and what the first has alone.
function besideOf(library, range, text, options) {
    if (text.trim() === '') {
        return undefined;
    }
    const other = library.npmRange(text, options);
    if (other.at === undefined) {
        return { refused: other };
    }
    return range === undefined ? {} : {
        both: listed(library, library.intersection(range, other.at)),
        alone: listed(library, library.difference(range, other.at)),
    };
}

export function answerTo(library, { text, other, versions, options }) {
    const read = library.npmRange(text, options);
    const range = read.at;
    const reading = listed(library, range);
    const least = range === undefined ? undefined : library.least(range, options.isIncluded);
    const found = versions.map((version) => versionOf(library, range, reading?.sets ?? [], version, options));
    const asked = found.filter(({ at }) => at !== undefined);
    return {
        text, other, options, refused: range === undefined ? read : undefined, reading, versions: found, asked,
        least: least === undefined ? undefined : library.versionText(least),
        highest: highestOf(library, asked),
        crate: crateReading(library, text, options.isIncluded ? undefined : range),
        beside: besideOf(library, range, other, options),
    };
}
