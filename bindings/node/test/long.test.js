// SPDX-License-Identifier: Apache-2.0
// Long texts in each function that reads one: each call returns, or throws a TypeError, and the work on texts is
// linear. Counted are the calls of the library and of the methods of strings and of regular expressions, each with the
// characters that it gets. `npm run speed -- long` measures the time.
'use strict';

const assert = require('node:assert');
const { test } = require('node:test');
const native = require('../internal/native.js');
const semver = require('..');
const { calls, shapes } = require('./long.js');

const SHORT = 15000;
const TIMES = 4;

// How many characters a text of no length may cost.
const FEW = 20000;

let count = 0;

const lengthOf = (value) => (typeof value === 'string' ? value.length : 0);

// Puts another function in the place of a method, and returns what puts the method back.
function replace(object, name, make) {
    const call = object[name];
    object[name] = make(call);
    return () => { object[name] = call; };
}

// Counts the calls of a method, and the characters of its object and of its arguments.
const counted = (call) => function count_(...values) {
    count += 1 + lengthOf(this) + values.reduce((sum, value) => sum + lengthOf(value), 0);
    return call.apply(this, values);
};

// Of a regular expression what it passes over: to the end of the match, or of the text. `split` asks at each place.
const countedMatch = (call) => function count_(text) {
    const begin = this.global || this.sticky ? this.lastIndex : 0;
    const match = call.call(this, text);
    const end = match !== null ? match.index + match[0].length : this.sticky ? begin : lengthOf(text);
    count += 1 + end - begin;
    return match;
};

const natives = Object.keys(native).filter((name) => typeof native[name] === 'function');
const methods = ['includes', 'indexOf', 'match', 'replace', 'split', 'trim'];

const countAll = () => [
    ...natives.map((name) => replace(native, name, counted)),
    ...methods.map((name) => replace(String.prototype, name, counted)),
    replace(RegExp.prototype, 'exec', countedMatch),
];

// What a call on a text counts.
function countOf(call, text, options) {
    const restore = countAll();
    count = 0;
    try {
        call(semver, text, options);
    } catch (error) {
        assert.ok(error instanceof TypeError, `${error}`);
    } finally {
        restore.forEach((one) => one());
    }
    return count;
}

// What a regular expression does inside is not counted, so this is a time: before it was linear it took 10 s.
test('parseRange of 160,000 characters of each shape', () => {
    for (const [shape, make] of Object.entries({ ...shapes, 'bars apart': (n) => '|| > '.repeat(n / 5) })) {
        const text = make(160000);
        const start = process.cpuUsage();
        for (const options of [{}, { loose: true }]) {
            try {
                calls.parseRange(semver, text, options);
            } catch (error) {
                assert.ok(error instanceof TypeError, `${error}`);
            }
        }
        const { user } = process.cpuUsage(start);
        assert.ok(user < 3e6, `${shape}: ${user} microseconds`);
    }
});

for (const [shape, make] of Object.entries(shapes)) {
    test(`a long text of ${shape}`, () => {
        const [short, long] = [make(SHORT), make(TIMES * SHORT)];
        for (const [name, call] of Object.entries(calls)) {
            for (const options of [{}, { loose: true, includePrerelease: true, rtl: true }]) {
                const less = countOf(call, short, options);
                const more = countOf(call, long, options);
                assert.ok(more <= (TIMES + 1) * less + FEW, `${name}: ${less}, and ${more} for ${TIMES} times the text`);
            }
        }
    });
}
