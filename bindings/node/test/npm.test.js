// SPDX-License-Identifier: Apache-2.0
// Every function on generated texts, here and in npm's `semver`: the two agree, or a rule covers the texts. Texts that differ are made as
// small as they get first, and the rule must cover those. Two generators make the texts: one by the grammar, and one that changes texts
// as people write them.
// NPM_PAIRS: how many pairs of a version and a range each generator makes, 10,000 if it is not set; NPM_SEED: others.
'use strict';

const assert = require('node:assert');
const { test } = require('node:test');
const { inspect } = require('node:util');
const { isMainThread, parentPort, Worker, workerData } = require('node:worker_threads');
const here = require('..');
const { OPTIONS, calls, result, npm } = require('./calls.js');
const { Edited } = require('./edited.js');
const { covering, rules } = require('./rules.js');
const { shrunk } = require('./shrunk.js');
const { Texts } = require('./texts.js');

const PAIRS = Number(process.env.NPM_PAIRS ?? 10000);
const SEED = Number(process.env.NPM_SEED ?? 1);
const OPERATORS = ['', '=', '==', '===', '!=', '!==', '<', '<=', '>', '>='];
const RELEASES = [...npm.RELEASE_TYPES, 'pre', 'other', undefined];
const IDENTIFIERS = [undefined, undefined, '', 'a', 'rc', 'beta', 'a.b', '0', '1', '1a'];
const BASES = [undefined, undefined, false, '0', '1', 0, 1, true];
const LIST = 6;
const THREADS = 4;
const SHOWN = Number(process.env.NPM_SHOWN ?? 20);
const GENERATORS = { grammar: Texts, edits: Edited };

const codeOf = ({ example: [call, ...texts] }) => `${call}(${texts.map((text) => inspect(text)).join(', ')})`;

function pair(texts) {
    return {
        v: texts.version(),
        w: texts.version(),
        r: texts.range(),
        s: texts.range(),
        operator: texts.of(OPERATORS),
        o: texts.of(OPTIONS),
        release: texts.of(RELEASES),
        identifier: texts.of(IDENTIFIERS),
        base: texts.of(BASES),
        again: Array.from({ length: 3 }, () => [texts.of(RELEASES), texts.of(IDENTIFIERS), texts.of(BASES)]),
        list: Array.from({ length: LIST }, () => texts.plainVersion()),
    };
}

// The calls of a pair that differ, each with the smallest texts.
function* differences(given) {
    const found = [];
    for (const name of Object.keys(calls)) {
        if (result(name, npm, given) !== result(name, here, given)) {
            const small = shrunk(name, given, found);
            found.push(small);
            yield { name, small };
        }
    }
}

// The pairs of one thread: how many calls differ, how many each rule covers, and the first of those that are wrong.
function compared({ generator, share }) {
    const texts = new GENERATORS[generator](SEED * THREADS + share);
    const found = { calls: 0, covered: 0, counts: new Map(), wrong: [], wrongs: 0 };
    for (let i = share; i < PAIRS; i += THREADS) {
        found.calls += Object.keys(calls).length;
        for (const { name, small } of differences(pair(texts))) {
            const covers = covering(name, small);
            covers.forEach((rule) => found.counts.set(rule.name, (found.counts.get(rule.name) ?? 0) + 1));
            found.covered += covers.length > 0 ? 1 : 0;
            if (covers.length === 0 && found.wrongs++ < SHOWN) {
                const [theirs, ours] = [npm, here].map((semver) => result(name, semver, small));
                found.wrong.push({ name, small, npm: theirs, here: ours });
            }
        }
    }
    return found;
}

const inThread = (workerData) => new Promise((resolve, reject) => {
    new Worker(__filename, { workerData }).once('message', resolve).once('error', reject);
});

const counts = new Map();

async function comparePairs(generator) {
    const all = await Promise.all(Array.from({ length: THREADS }, (_, share) => inThread({ generator, share })));
    const sum = (name) => all.reduce((total, found) => total + found[name], 0);
    const agreed = sum('calls') - sum('covered') - sum('wrongs');
    console.log(`${sum('calls')} calls by seed ${SEED}: ${agreed} agreed, ${sum('covered')} under a rule, `
        + `${sum('wrongs')} wrong`);
    all.forEach((found) => found.counts.forEach((count, name) => counts.set(name, (counts.get(name) ?? 0) + count)));
    assert.deepStrictEqual(all.flatMap(({ wrong }) => wrong).slice(0, SHOWN), []);
    assert.strictEqual(sum('calls'), PAIRS * Object.keys(calls).length);
    assert.ok(agreed > sum('calls') * 0.8, 'most calls agree');
}

function checkRules() {
    for (const { name } of rules) {
        const count = counts.get(name) ?? 0;
        console.log(`${String(count).padStart(9)}  ${name}`);
        assert.ok(count > 0 || PAIRS < 10000, `no text is under the rule: ${name}`);
    }
}

const plain = (result) => result?.version ?? result ?? null;

function checkExamples() {
    const call = (semver, { example }) => plain(semver[example[0]](...example.slice(1)));
    for (const rule of rules) {
        assert.strictEqual(call(npm, rule), rule.npm, `npm: ${codeOf(rule)}`);
        assert.strictEqual(call(here, rule), rule.here, `here: ${codeOf(rule)}`);
    }
}

if (isMainThread) {
    for (const name of Object.keys(GENERATORS)) {
        test(`${PAIRS} pairs by ${name}: each function returns what npm's returns, or a rule covers the texts`, () =>
            comparePairs(name));
    }
    test('each rule covers a text', checkRules);
    test('the example of each rule is so', checkExamples);
} else {
    parentPort.postMessage(compared(workerData));
}
