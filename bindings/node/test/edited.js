// SPDX-License-Identifier: Apache-2.0
// The second generator: texts as people write them, of which a few bytes are then changed. It knows nothing of the
// grammar. A run can be repeated by its seed.
'use strict';

// xorshift32.
function random(seed) {
    let state = (seed * 2654435761 + 1) >>> 0 || 1;
    return (below) => {
        state ^= state << 13;
        state >>>= 0;
        state ^= state >>> 17;
        state ^= state << 5;
        state >>>= 0;
        return state % below;
    };
}

const VERSIONS = ['1.2.3', '0.0.0', '2.0.0', '1.0.0-rc.1', '1.2.3-alpha', '1.2.3+build.5', '2.1.0-beta.2+sha.0a1b',
    'v1.2.3', '0.1.0', '1.10.2', '1.2.3-0', '1.0.1', '3.0.0-x.7.z.92', '1.1.1', '2.0.1-pre', '=1.2.3'];
const RANGES = ['1.2.3', '^1.2.3', '~1.2.3', '>=1.2.3 <2.0.0', '1.x', '1.2.x', '*', '1.2.3 - 2.3.4', '1 - 2',
    '^1 || ^2', '>1.2.3-rc.1', '^0.1.2', '~0.0.3', '>=1.0.0-alpha <1.0.0', '<=2.0.0', '<3', '=1.2.3', 'latest', '1',
    '1.2', '>=1 <3 || 5.x', 'v1.2.3', '~>1.2', '1.0.0 || >=2.5.0 || 5.0.0 - 7.2.3', '>=1.2.3+b <2', '^1.2.3-beta.2',
    '>= 1.0.0', '< 2.0.0-rc', 'x', '', 'npm:a@1', '>0.0.0', '<=1.2.x', '^1.x', '2.x.x', '~1', '1.2.3-a || 1.2.4-b'];
const TOKENS = [...'0123.-+ |xX*vV=<>^~', ' ', ' ', '\t', '\n', '||', '>=', '<=', '~>', ' - ', 'rc', 'a', '-0', '.x',
    '1.2.3', '01', 'foo', '9007199254740992', '.0', '-a.1', '+b', '+01', '- ', ' . ', 'x'];

class Edited {
    constructor(seed) {
        this.below = random(seed);
        for (let i = 0; i < 10; i++) {
            this.below(2);
        }
    }

    of(list) {
        return list[this.below(list.length)];
    }

    // The text with one change: a piece put in, taken out, written twice, or put in the place of another.
    edit(text) {
        const at = this.below(text.length + 1);
        const length = 1 + this.below(3);
        const [before, piece, after] = [text.slice(0, at), text.slice(at, at + length), text.slice(at + length)];
        const more = this.below(300) === 0 ? 'a'.repeat(260) : this.of(TOKENS);
        return before + this.of([more + piece, '', piece + piece, more, more]) + after;
    }

    edited(text) {
        for (let count = this.of([0, 0, 0, 0, 1, 1, 1, 2, 2, 3]); count > 0; count--) {
            text = this.edit(text);
        }
        return text;
    }

    version() {
        return this.edited(this.of(VERSIONS));
    }

    plainVersion() {
        return this.below(12) === 0 ? this.version() : this.of(VERSIONS);
    }

    range() {
        const text = this.edited(this.of(RANGES));
        return this.below(3) > 0 ? text : `${text}${this.of([' ', '||', ' || '])}${this.edited(this.of(RANGES))}`;
    }
}

module.exports = { Edited };
