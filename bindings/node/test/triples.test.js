// SPDX-License-Identifier: Apache-2.0
// Triples, which JavaScript reads without the library, and texts that are nearly one: each is what it is to npm, as a version and beside others.
'use strict';

const assert = require('node:assert');
const { describe, test } = require('node:test');
const semver = require('..');
const native = require('../internal/native.js');
const { createNpm } = require('./npm.js');

const npm = createNpm();
const OPTIONS = [undefined, true, { loose: true }, { includePrerelease: true }];

function outcome(call) {
    try {
        return call();
    } catch (error) {
        return `throws ${error.message}`;
    }
}

function areAsNpm(texts, call) {
    for (const text of texts) {
        for (const options of OPTIONS) {
            const [theirs, ours] = [npm, semver].map((it) => outcome(() => call(it, text, options)));
            assert.deepStrictEqual(ours, theirs, `${JSON.stringify(text)}, ${JSON.stringify(options)}`);
        }
    }
}

const fields = ({ major, minor, patch, prerelease, build, version, raw }) => ({ major, minor, patch, prerelease, build, version, raw });
const calls = {
    valid: (it, text, options) => it.valid(text, options),
    clean: (it, text, options) => it.clean(text, options),
    'new SemVer': (it, text, options) => fields(new it.SemVer(text, options)),
    'compare, first': (it, text, options) => it.compare(text, '1.2.3', options),
    'compare, second': (it, text, options) => it.compare('1.2.3', text, options),
    'compare, with itself': (it, text, options) => it.compare(text, text, options),
    compareBuild: (it, text, options) => it.compareBuild(text, '1.2.3+b', options),
    'satisfies': (it, text, options) => it.satisfies(text, '>=1.2.3', options),
};

const nines = (count) => '9'.repeat(count);
const at = (number) => [`${number}.2.3`, `1.${number}.3`, `1.2.${number}`];

const shapes = {
    'triples': ['1.2.3', '0.0.0', '1.0.0', '0.1.0', '0.0.1', '10.20.30', '1.2.4', '1.3.0', '2.0.0'],
    'marks and white space': ['v1.2.3', '=1.2.3', 'v=1.2.3', 'v 1.2.3', 'vv1.2.3', 'V1.2.3', ' 1.2.3', '1.2.3 ', '\t1.2.3\n', '\u00a01.2.3', '1.2.3\u3000',
        '1 .2.3', '1. 2.3', '1.2 .3', '1.2.3\0'],
    'leading zeros': [...at('00'), ...at('01'), ...at('007'), ...at('0000000000000000001')],
    'other numbers of parts': ['', '1', '1.2', '1.2.', '.1.2', '1..2', '..', '...', '1.2.3.', '.1.2.3', '1.2.3.4', '1.2..3'],
    'more than three numbers': ['1.2.3-', '1.2.3+', '1.2.3-a', '1.2.3-0', '1.2.3-00', '1.2.3+0', '1.2.3-a+b', '1.2.3a', '1.2.3-1.2.3'],
    'no digits': [...at('x'), ...at('-1'), ...at('+1'), ...at('1e3'), ...at('0x1'), ...at('1_0'), ...at('\u0663'), ...at('\uff11'), ...at('\ud800'),
        ...at('/'), ...at(':'), '1,2,3', '1-2-3', '1/2/3'],
    'large numbers': [...at('65535'), ...at('65536'), ...at('4294967295'), ...at('4294967296'), ...at(nines(15)), ...at(`1${nines(15)}`), ...at(nines(16)),
        ...at('9007199254740990'), ...at('9007199254740991'), ...at('9007199254740992'), ...at(`1${'0'.repeat(15)}`), ...at(nines(250)), ...at(nines(300)),
        `${nines(15)}.${nines(15)}.${nines(15)}`, '9007199254740991.9007199254740991.9007199254740991'],
    'as long as a version may be': [5, 250, 251, 252, 260].flatMap((count) =>
        [`1.2.3${' '.repeat(count)}`, `${' '.repeat(count)}1.2.3`, `1.2.3-${'a'.repeat(count)}`, `1.2.3+${'a'.repeat(count)}`]),
};

describe('a triple, and what is nearly one, is as with npm', () => {
    for (const [shape, texts] of Object.entries(shapes)) {
        for (const [name, call] of Object.entries(calls)) {
            // (the page of differences has it: `1.2.3-` in loose form)
            const asked = shape === 'more than three numbers' ? texts.filter((text) => text !== '1.2.3-') : texts;
            test(`${name}: ${shape}`, () => areAsNpm(asked, call));
        }
    }
});

test('each two triples compare as with npm', () => {
    const numbers = ['0', '1', '9', '10', '65535', '65536', '4294967296', nines(15), '9007199254740991'];
    const triples = numbers.flatMap(at);
    for (const one of triples) {
        areAsNpm(triples, (it, other) => it.compare(one, other));
    }
});

const LETTERS = ['0', '1', '.', 'v', ' ', 'a'];

// All texts of so many of the letters.
function* texts(length) {
    if (length === 0) {
        yield '';
        return;
    }
    for (const text of texts(length - 1)) {
        for (const letter of LETTERS) {
            yield text + letter;
        }
    }
}

test('all texts of up to six letters are as with npm', () => {
    let valid = 0;
    for (let length = 0; length <= 6; length++) {
        for (const text of texts(length)) {
            const found = semver.valid(text);
            valid += found === null ? 0 : 1;
            assert.ok(found === npm.valid(text), text);
        }
    }
    assert.ok(valid > 50);
});

test('a triple is read as the library reads it after a `v`', () => {
    for (const text of ['1.2.3', '0.0.0', `${nines(15)}.0.0`]) {
        assert.deepStrictEqual([native.isVersion(text), native.isVersion(`v${text}`)], [true, true]);
        assert.deepStrictEqual(native.readVersion(text), native.readVersion(`v${text}`));
    }
});
