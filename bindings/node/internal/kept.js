// SPDX-License-Identifier: Apache-2.0
// The ranges of the texts that were read last: the library keeps them, at places.
'use strict';

const native = require('./native.js');
const { trimmedRange } = require('./texts.js');

// How many ranges of short texts are kept, at the first places, and the greatest length of such a text.
const PLACES = 512;
const LONGEST_SHORT = 128;

// How many ranges of longer texts are kept, at the places after these, and how many characters these have in all. A text that has more
// than half of them is read at each call. So no text takes memory that grows with the calls.
const LONG_PLACES = 64;
const MOST_CHARACTERS = 2 ** 18;

const REFUSED = -1;

// The key of a range text, which stays its key.
const textKey = (text, flags) => `${flags}${text}`;
const textOfKey = (key) => key.slice(1);

// The ranges of texts, by their options; REFUSED for a text that is refused. They are objects and not Maps, since the name of a property is
// a string of its own: a text that was cut from a long string would keep the long string in memory.
const noRanges = () => [{ __proto__: null }, { __proto__: null }, { __proto__: null }, { __proto__: null }];

// The places from `first` on. There are two halves of them: the older one is forgotten, and its places used again, when the newer one is
// full. That takes less time than to forget the oldest text each time.
class Places {
    older = noRanges();
    newer = noRanges();
    count = 0;
    characters = 0;

    constructor(first, places, mostCharacters) {
        this.first = first;
        this.half = places / 2;
        this.mostOfHalf = mostCharacters / 2;
        // Whether the newer half has the upper places.
        this.isUpper = false;
    }

    get(text, flags) {
        return this.newer[flags][text] ?? this.older[flags][text];
    }

    // The first place of the newer half.
    start() {
        return this.first + (this.isUpper ? this.half : 0);
    }

    // Where the next range is kept, whose text has so many characters.
    next(length) {
        if (this.count === this.half || this.characters + length > this.mostOfHalf) {
            this.forgetOlder();
        }
        return this.start() + this.count;
    }

    forgetOlder() {
        this.older = this.newer;
        this.newer = noRanges();
        this.isUpper = !this.isUpper;
        this.count = 0;
        this.characters = 0;
        native.forget(this.start(), this.half);
    }

    put(text, flags, range) {
        this.newer[flags][text] = range;
        this.count++;
        this.characters += text.length;
    }
}

const short = new Places(0, PLACES, PLACES * LONGEST_SHORT);
const long = new Places(PLACES, LONG_PLACES, MOST_CHARACTERS);

const placesOf = ({ length }) => (length <= LONGEST_SHORT ? short : length <= long.mostOfHalf ? long : undefined);

// Reads the range of a text, and keeps it.
function keep(places, text, flags, isTrimmed) {
    const key = textKey(isTrimmed ? text : trimmedRange(text), flags);
    const range = native.keep(key, places.next(text.length)) ?? REFUSED;
    places.put(text, flags, range);
    return range;
}

// The range of a text that is read with such options, which is kept from now on if it was not; or REFUSED; or `undefined` for a text that
// is too long.
function rangeOfText(text, flags, isTrimmed) {
    const places = placesOf(text);
    return places === undefined ? undefined : places.get(text, flags) ?? keep(places, text, flags, isTrimmed);
}

// The key of a range text: its range, or the text itself; or REFUSED.
const keptKey = (text, flags) => rangeOfText(text, flags) ?? textKey(trimmedRange(text), flags);

module.exports = { REFUSED, keptKey, rangeOfText, textKey, textOfKey };
