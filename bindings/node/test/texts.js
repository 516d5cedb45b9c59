// SPDX-License-Identifier: Apache-2.0
// Texts of versions and ranges, made from pieces by a generator with a seed, so that a run can be repeated.
'use strict';

// mulberry32.
function random(seed) {
    let state = seed >>> 0;
    return (below) => {
        state = (state + 0x6d2b79f5) >>> 0;
        let mixed = Math.imul(state ^ (state >>> 15), state | 1);
        mixed ^= mixed + Math.imul(mixed ^ (mixed >>> 7), mixed | 61);
        return ((mixed ^ (mixed >>> 14)) >>> 0) % below;
    };
}

const NUMBERS = [...'0123401231', '10', '12', '01', '002', '00', '9007199254740991', '9007199254740992'];
const IDENTIFIERS = [...'01201ab', 'rc', 'alpha', 'beta', '10', 'x', '-', '0a', '01', 'a-b', '9007199254740993'];
const SPACES = [' ', ' ', ' ', ' ', '  ', '\t', '\n', '\u00a0'];
const ODD = ['', ' ', '-', '|', '||', 'foo', 'latest', '=', '>', '^', '~', '1.2.3.4', 'V1.2.3', '>=', '\u0161',
    '1.2.3 4', '*', '1..2'];

class Texts {
    constructor(seed) {
        this.below = random(seed);
    }

    // Whether one of so many throws of a die.
    one(of) {
        return this.below(of) === 0;
    }

    of(list) {
        return list[this.below(list.length)];
    }

    number() {
        return this.one(12) ? this.of(NUMBERS) : String(this.below(4));
    }

    identifiers() {
        return Array.from({ length: 1 + this.below(3) }, () => this.of(IDENTIFIERS)).join('.');
    }

    extras() {
        const dash = this.one(8) ? '' : '-';
        const prerelease = this.one(3) ? dash + this.identifiers() : '';
        return prerelease + (this.one(6) ? `+${this.identifiers()}` : '');
    }

    version() {
        if (this.one(40)) {
            return this.of(ODD);
        }
        const before = this.one(25) ? this.of(['v', '=', 'v=', '= v', ' ', 'v ', 'V']) : '';
        const after = this.one(40) ? this.of([' ', '\n', '-', '.', '+', 'x', '.4']) : '';
        return `${before}${this.number()}.${this.number()}.${this.number()}${this.extras()}${after}`;
    }

    // A version without odd parts, of few different ones.
    plainVersion() {
        const prerelease = this.one(3) ? `-${this.of(['a', 'b', 'rc'])}.${this.below(3)}` : '';
        const build = this.one(8) ? `+${this.of(['a', 'b', '5', '12'])}` : '';
        return `${this.below(4)}.${this.below(4)}.${this.below(4)}${prerelease}${build}`;
    }

    component() {
        return this.one(9) ? this.of(['x', 'X', '*']) : this.number();
    }

    partial() {
        if (this.one(20)) {
            return this.of(['', 'v', 'v', '=', 'v=', '=v']) + this.of(['0.0.0', '0.0', '0', '0.0.0-0', '0.x', '0.0.0+b', '00.0.0']);
        }
        if (this.one(3)) {
            return `${this.number()}.${this.number()}.${this.number()}${this.extras()}`;
        }
        const count = 1 + this.below(3);
        const triple = Array.from({ length: count }, () => this.component()).join('.');
        return (this.one(30) ? this.of(['v', '=', 'v ', 'vv']) : '') + triple + (count === 3 ? this.extras() : '');
    }

    space() {
        return this.one(10) ? this.of(SPACES) : ' ';
    }

    word() {
        if (this.one(60)) {
            return this.of(ODD);
        }
        if (this.one(150)) {
            return `1.2.3${this.of(['-', '+'])}v=${this.space()}${this.partial()}`;
        }
        const operator = this.of(['', '^', '~', '>=', '<', '<=', '>', '=', '~>', '^', '', '<', '>=']);
        return operator + (this.one(15) ? this.space() : '') + this.partial();
    }

    alternative() {
        if (this.one(40)) {
            return '';
        }
        if (this.one(8)) {
            return `${this.partial()}${this.space()}-${this.space()}${this.partial()}`;
        }
        return Array.from({ length: this.of([1, 1, 1, 2, 2, 3]) }, () => this.word()).join(this.space());
    }

    range() {
        const blank = () => (this.one(3) ? this.space() : '');
        return Array.from({ length: this.of([1, 1, 1, 2, 3]) }, () => this.alternative()).reduce((text, alternative) =>
            `${text}${blank()}||${blank()}${alternative}`);
    }
}

module.exports = { Texts };
