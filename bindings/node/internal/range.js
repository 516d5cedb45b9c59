// SPDX-License-Identifier: Apache-2.0
// The class Range, and the keys of values that are passed as ranges.
'use strict';

const native = require('./native.js');
const { caught } = require('./errors.js');
const { isForeignComparator, isForeignRange, optionsOfForeign } = require('./foreign.js');
const { Comparator, comparatorOf, ANY } = require('./comparator.js');
const { REFUSED, keptKey, rangeOfText, textKey, textOfKey } = require('./kept.js');
const { flagsOf, parseOptions } = require('./options.js');
const { SemVer, keyOfSemVer, semVerOfKey } = require('./semver.js');
const { strictText, trimmedRange, trimmedVersion } = require('./texts.js');
const { readAlternative, readSet, refusal, setOf } = require('./words.js');

// The kinds of cuts, by their numbers in node_semver.h.
const KINDS = ['start', 'before', 'after', 'end'];

// Replaces `||` in a text that is read as one alternative: no comparator has such a character. The character itself is
// replaced too, so that a text can be put together again.
const MARK = '\0';
const [BAR, SAME] = [`${MARK}\x02`, `${MARK}\x01`];
const withoutBars = (text) => text.replaceAll(MARK, SAME).replaceAll('||', BAR);
const withBars = (text) => text.replaceAll(BAR, '||').replaceAll(SAME, MARK);

let keyOfRange;
let callKey;
let rangeOfKey;
let own;

// The Ranges that replace copies.
const standIns = new WeakMap();

// Marks a constructor's call that passes a key, and not what a user passed.
const MADE = Symbol('made');

class Range {
    // The text and its options, and what the library keeps of it; or the key of a range that was made of others.
    #text;
    #flags;
    #kept;
    #made;
    #set;
    #range;

    constructor(range, options, made = undefined) {
        const parsed = parseOptions(options);
        const { loose, includePrerelease } = parsed;
        if (range instanceof Range && range.loose === !!loose && range.includePrerelease === !!includePrerelease) {
            return range;
        }
        this.options = parsed;
        this.loose = !!loose;
        this.includePrerelease = !!includePrerelease;
        this.#flags = flagsOf(this);
        if (made === MADE) {
            this.#made = range;
            this.raw = typeof range === 'string' ? textOfKey(range) : native.rangeText(range);
        } else {
            this.raw = typeof range === 'string' ? trimmedRange(range) : textOfRange(range);
            this.#text = this.raw;
            this.#kept = rangeOfText(this.raw, this.#flags, true);
            if (this.#kept === REFUSED || (this.#kept === undefined && !isRead(this.raw, this.#flags))) {
                throw new TypeError(refusal(this.raw, this.#flags));
            }
        }
    }

    static {
        // A deep copy, an object that inherits from a Range and a proxy have no private fields: a Range of their text
        // replaces them.
        own = (range) => (#text in range ? range : standIn(range));
        callKey = (range) => {
            const mine = own(range);
            if (mine.#made !== undefined) {
                return mine.#made;
            }
            if (mine.#kept === undefined || !native.isKept(mine.#kept)) {
                mine.#kept = rangeOfText(mine.#text, mine.#flags, true);
            }
            return mine.#kept ?? textKey(mine.#text, mine.#flags);
        };
        keyOfRange = (range) => {
            const mine = own(range);
            return mine.#made ?? textKey(mine.#text, mine.#flags);
        };
        rangeOfKey = (key, options) => (key === null ? null : new Range(key, options, MADE));
    }

    // The range of these sets in their order, or null if there is none.
    static fromSets(sets) {
        return rangeOfKey(native.fromSets([...sets].flatMap(({ lower, upper }) => [...cutKeys(lower), ...cutKeys(upper)])));
    }

    // The sets of the range in the order of its text. A set lies from the lower cut up to the upper one.
    get sets() {
        const cuts = native.sets(callKey(this));
        return Array.from({ length: cuts.length / 4 }, (_, i) => ({
            lower: cutOf(cuts[4 * i], cuts[4 * i + 1]),
            upper: cutOf(cuts[4 * i + 2], cuts[4 * i + 3]),
        }));
    }

    // The intervals of keys of the versions that the range admits. With prereleases included each is there for both kinds.
    intervals() {
        const parts = native.intervals(callKey(this));
        return Array.from({ length: parts.length / 3 }, (_, i) => ({
            lower: parts[3 * i], upper: parts[3 * i + 1], prereleases: parts[3 * i + 2],
        }));
    }

    // npm's comparators, which are made when they are first asked for.
    get set() {
        const mine = own(this);
        mine.#set ??= mine.#made !== undefined ? setOf(mine.#made, mine.options)
            : readSet(mine.#text, mine.#flags, mine.options);
        return mine.#set;
    }

    set set(value) {
        own(this).#set = value;
    }

    get range() {
        return own(this).#range ?? this.format();
    }

    set range(value) {
        own(this).#range = value;
    }

    format() {
        const text = this.set.map((comparators) => comparators.join(' ').trim()).join('||').trim();
        own(this).#range = text;
        return text;
    }

    toString() {
        return this.range;
    }

    // The fields that npm has, in its order.
    toJSON() {
        const { options, loose, includePrerelease, raw, set, range } = this;
        return { options, loose, includePrerelease, raw, set, range };
    }

    // The comparators of a text without `||`: a word with it is none.
    parseRange(range) {
        const flags = flagsOf(this);
        const text = joined(withoutBars(trimmedRange(range)));
        const comparators = readAlternative(text, flags, this.options);
        if (comparators.length > 0) {
            return comparators;
        }
        if (!this.loose) {
            throw new TypeError(withBars(refusal(text, flags)));
        }
        return /^ | $/.test(range) ? [comparatorOf('', ANY, this.options)] : [];
    }

    test(version) {
        if (!version) {
            return false;
        }
        if (typeof version === 'string') {
            return admitsText(trimmedVersion(version), this, this.loose);
        }
        const key = keyOfSemVer(version instanceof SemVer ? version : new SemVer(version, this.options));
        return native.satisfies(key, callKey(this));
    }

    intersects(range, options) {
        if (isForeignRange(range) && !(range instanceof Range)) {
            return this.intersects(new Range(range.raw, optionsOfForeign(range)), options);
        }
        if (!(range instanceof Range)) {
            throw new TypeError('a Range is required');
        }
        return this.set.some((ours) => isSatisfiable(ours, options)
            && range.set.some((theirs) => isSatisfiable(theirs, options)
                && ours.every((one) => theirs.every((other) => one.intersects(other, options)))));
    }
}

// Whether the library reads a text that is too long to be kept.
const isRead = (text, flags) => native.refusedAt(textKey(text, flags)) === null;

// A word with `||` whose operator is joined with a partial that follows. The words of other texts are joined as the library
// joins them.
const isJoined = (word, next) => word.includes(BAR) && /[<>=~^]/.test(word.at(-1)) && /^[v=]*[\dxX*]/.test(next);

const joined = (text) => text.split(' ').map((word, i, words) => (i > 0 && !isJoined(words[i - 1], word) ? ` ${word}` : word)).join('');

// The Range of the text of an object that has no private fields.
function standIn(range) {
    let found = standIns.get(range);
    if (found === undefined) {
        found = new Range(range.raw, range.options);
        standIns.set(range, found);
    }
    return found;
}

// Whether the comparators of an alternative meet in pairs.
const isSatisfiable = (comparators, options) => comparators.every((one, place) =>
    comparators.slice(0, place).every((other) => one.intersects(other, options)));

// The version of a text that is not in the form of SemVer 2.0.0 is read again in the loose form.
function admitsText(text, range, isLoose) {
    const key = callKey(range);
    return native.satisfies(text, key) || (isLoose && native.satisfies(strictText(text), key));
}

const cutOf = (kind, key) => ({ kind: KINDS[kind], version: semVerOfKey(key) });

// The number of a cut's kind, and the key of its version.
function cutKeys({ kind, version }) {
    const number = KINDS.indexOf(kind);
    if (number < 0) {
        throw new TypeError(`Invalid kind of a cut: ${String(kind)}`);
    }
    return [number, version === null || version === undefined ? null : keyOfSemVer(new SemVer(version))];
}

// The text of an object that is passed for a range. As with npm, a String is one, or whatever is trimmed and divided as
// a string is.
function textOfObject(range) {
    if (range instanceof Comparator || isForeignComparator(range)) {
        return range.value;
    }
    return range instanceof Range || isForeignRange(range) ? textOfRaw(range.raw) : range.trim().split(/\s+/).join(' ');
}

// The same, which is a text whatever a user has put into the object.
function textOfRange(range) {
    const text = textOfObject(range);
    if (typeof text !== 'string') {
        throw new TypeError(`Invalid range. Must be a string. Got type "${typeof range}".`);
    }
    return text;
}

// The text of a Range, which a user may have changed into something else.
function textOfRaw(range) {
    return typeof range === 'string' ? range : range.trim();
}

// The Range of an argument; `undefined` if it is none.
function rangeOf(range, options) {
    try {
        return new Range(range, options);
    } catch (error) {
        return caught(error, undefined);
    }
}

module.exports = { Range, callKey, keyOfRange, rangeOfKey, rangeOf };
