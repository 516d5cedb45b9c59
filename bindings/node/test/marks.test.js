// SPDX-License-Identifier: Apache-2.0
// All words of an operator, a blank, marks and a partial, and all hyphen ranges of two such partials: each function of ranges
// returns what npm's returns, or a rule covers the text. JavaScript divides a text into words, and goes by
// their texts: this is every way in which a mark can stand before a partial.
// MARKS_SEED and MARKS_PAIRS: how many made pairs of such words beside them, each with more functions.
'use strict';

const assert = require('node:assert');
const { test } = require('node:test');
const { inspect } = require('node:util');
const here = require('..');
const { calls, npm, result, takes } = require('./calls.js');
const { covering } = require('./rules.js');
const { shrunk } = require('./shrunk.js');
const { Texts } = require('./texts.js');

const SEED = Number(process.env.MARKS_SEED ?? 1);
const PAIRS = Number(process.env.MARKS_PAIRS ?? 2000);

const OPERATORS = ['', '=', '>', '>=', '<', '<=', '~', '~>', '^'];
const BLANKS = ['', ' '];
const MARKS = ['', 'v', '=', 'vv', 'v=', '=v', 'v ', '= '];
const PARTIALS = ['0', '0.0', '0.x', '0.0.x', '0.x.0', 'x', '*', '00', '0.00', '0.00.x', '0.x.00', '1.2', '1.2.3', '0.0.1', '0.1.0'];
const TRIPLES = ['0.0.0', '00.0.0', '0.00.0', '0.0.00'];
const EXTRAS = ['', '-0', '-a', '+b', '-0+b', '-00', '0', 'a'];
const OPTIONS = [{}, { loose: true }, { includePrerelease: true }, { loose: true, includePrerelease: true }];

const partials = [...PARTIALS, ...TRIPLES.flatMap((triple) => EXTRAS.map((extra) => triple + extra))];
const marked = MARKS.flatMap((marks) => partials.map((partial) => marks + partial));
const words = OPERATORS.flatMap((operator) => BLANKS.flatMap((blank) => marked.map((partial) => operator + blank + partial)));
const few = MARKS.flatMap((marks) => ['0', '0.0.0', '0.0.0-0', '0.0.0+b', '1.2.3', '00.0.0', '0.x'].map((partial) => marks + partial));
const hyphens = few.flatMap((one) => few.map((other) => `${one} - ${other}`));

// The functions that go by the comparators of a range.
const OF_ONE = ['validRange', 'toComparators', 'minVersion', 'parseRange'];
const OF_TWO = ['intersects', 'subset', 'gtr', 'ltr', 'outside', 'satisfies', 'Comparator.intersects'];
const PARTNERS = [['<0.0.0', '0.0.0-0'], ['>=0.0.0-0 <9', '0.0.0'], ['<1', '1.0.0-a'], ['*', '0.0.0-a']];

// The first calls that differ from npm's and that no rule covers, and how many calls there were. One word is small already.
function differences(all, areSmall, shown = 20) {
    const found = { calls: 0, covered: 0, wrong: [] };
    for (const [name, texts] of all) {
        found.calls++;
        if (result(name, npm, texts) === result(name, here, texts)) {
            continue;
        }
        const small = areSmall ? texts : shrunk(name, texts, []);
        if (covering(name, small).length > 0) {
            found.covered++;
        } else if (found.wrong.length < shown) {
            found.wrong.push(`${name} ${inspect(small)}: npm ${result(name, npm, small)}, here ${result(name, here, small)}`);
        }
    }
    return found;
}

function compare(all, areSmall) {
    const { calls, covered, wrong } = differences(all, areSmall);
    console.log(`${calls} calls, ${covered} under a rule`);
    assert.deepStrictEqual(wrong, []);
    assert.ok(calls > 1000 && covered < calls / 2);
}

function* ofWords(texts) {
    for (const o of OPTIONS) {
        for (const r of texts) {
            for (const name of OF_ONE) {
                yield [name, { r, o }];
            }
            const [s, v] = PARTNERS[r.length % PARTNERS.length];
            for (const name of OF_TWO) {
                yield [name, { r, s, v, o, operator: '>' }];
            }
        }
    }
}

test('each word', () => compare(ofWords(words), true));
test('each hyphen range', () => compare(ofWords(hyphens), true));

// Two alternatives or two words of one alternative, with each function that takes a range.
function* ofPairs() {
    const texts = new Texts(SEED);
    const names = Object.keys(calls).filter((name) => takes[name].includes('r'));
    const range = () => `${texts.of(texts.one(3) ? hyphens : words)}${texts.of([' ', '||', ' || '])}${texts.of(words)}`;
    for (let i = 0; i < PAIRS; i++) {
        const given = {
            r: texts.one(4) ? texts.of(words) : range(), s: texts.one(2) ? texts.of(words) : range(), o: texts.of(OPTIONS),
            v: texts.of(['0.0.0', '0.0.0-0', '0.0.0-a', '0.0.1', '1.2.3', '0.1.0-b']), operator: texts.of(['<', '>']),
            list: ['0.0.0', '0.0.0-0', '0.0.1', '1.2.3'],
        };
        for (const name of names) {
            yield [name, given];
        }
    }
}

test(`${PAIRS} pairs of such words: each function of a range`, () => compare(ofPairs(), false));
