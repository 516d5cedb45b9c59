// SPDX-License-Identifier: Apache-2.0
// Memory that does not grow: each function in a loop, without a turn of the event loop where nothing waits for one. It
// is run with `--expose-gc`, and with `--max-semi-space-size=1` so that JavaScript's room for young objects keeps its
// size.
'use strict';

const assert = require('node:assert');
const { test } = require('node:test');
const { setImmediate: turn } = require('node:timers/promises');
const semver = require('..');
const pick = require('../pick.js');
const resolve = require('../resolve.js');
const { large } = require('./documents.js');

const CALLS = 200000;
const MOST = 8 * 1024 * 1024;

// How many bytes the process has more after so many calls than after a few.
async function growth(call, turns, calls = CALLS) {
    const loop = async (times) => {
        for (let i = 0; i < times; i++) {
            call(i);
            if (turns && i % 1000 === 0) {
                await turn();
            }
        }
        for (let i = 0; i < 3; i++) {
            globalThis.gc();
            await turn();
        }
        return process.memoryUsage().rss;
    };
    await loop(calls / 4);
    const before = await loop(calls / 4);
    return await loop(calls) - before;
}

const versions = Array.from({ length: 20 }, (_, i) => `1.${i}.0-rc.${i}+b.${i}`);
const text = (i) => `^1.${i}.0 || >=2.0.0-rc.${i} <3`;
const long = (i) => Array.from({ length: 20 }, (_, j) => `^${j}.${i}.0`).join(' || ');
const LONG = `${'^1.2.3 || '.repeat(13)}^4.5.6-rc.1`;
const LONGER = `${LONG} || `.repeat(2000) + LONG;

const calls = {
    'satisfies, one range': () => semver.satisfies('1.2.3-rc.1+b', '^1.2.3-rc.0'),
    'satisfies, many ranges': (i) => semver.satisfies('1.2.3-rc.1+b', text(i)),
    'satisfies, refused': (i) => semver.satisfies('1.2.x', `foo${i}`),
    'new SemVer': (i) => new semver.SemVer(`1.2.3-rc.${i}`),
    'new Range': (i) => new semver.Range(text(i)).test('1.2.3'),
    'new SemVer, refused': () => semver.parse('1.2'),
    compareBuild: (i) => semver.compareBuild(`1.2.3+a.${i}`, '1.2.3+a.b'),
    'inc, diff and coerce': (i) => [semver.inc(`1.${i}.0-rc.1`, 'prerelease'), semver.diff(`1.${i}.0`, '2.0.0'),
        semver.coerce(`a 1.${i} b`)],
    'satisfies, loose, with prereleases': (i) => semver.satisfies('v1.2.3rc.1', text(i),
        { loose: true, includePrerelease: true }),
    'intersect and difference': (i) => [semver.intersect(text(i), '>1'), semver.difference(text(i), '>=2.5')],
    leastBeyond: (i) => semver.leastBeyond(text(i), '^1'),
    'sets, and a range from them': (i) => semver.Range.fromSets(new semver.Range(text(i)).sets),
    'key and intervals': (i) => [semver.key(`1.2.3-rc.${i}`), new semver.Range(text(i)).intervals()],
    'satisfies, a String': (i) => semver.satisfies('1.2.3', new String(text(i))),
    // In one turn of the event loop, in which no finalizer runs.
    'maxSatisfying, one long range': () => semver.maxSatisfying(['1.2.3'], LONG),
    'maxSatisfying, many long ranges': (i) => i % 10 === 0 && semver.maxSatisfying(['1.2.3'], `${LONG} || ^${i}.0.0`),
};

// Calls that make the comparators of a range, which takes longer.
const SLOW_CALLS = CALLS / 8;
const document = large(20);
const manySets = Array.from({ length: 80 }, (_, i) => `^${i}.2.0`).join(' || ');
const slow = {
    'Range, one that is not kept': (i) => i % 500 === 0 && new semver.Range(LONGER).test('1.2.3'),
    'Range, many long ranges': (i) => i % 2 === 0 && new semver.Range(`${LONG} || ^${i}.0.0`).test('1.2.3'),
    'intersect, many sets': (i) => semver.intersect(manySets, `>=1.2.${i}`).test('1.2.3'),
    pick: (i) => pick(document, i % 2 ? '^1' : `<=2.${i}`, { avoid: `>=2.${i}` }),
    resolve: (i) => resolve({ dependencies: { a: i % 2 ? '^1' : `<=2.${i}` } }, { a: document }),
    minVersion: (i) => semver.minVersion(text(i)),
    'Range.set': (i) => new semver.Range(text(i)).set,
    'subset and intersects': (i) => [semver.subset(text(i), '>=1'), semver.intersects(text(i), '>1')],
};

for (const [name, call] of Object.entries(slow)) {
    test(`${name}: ${SLOW_CALLS} calls`, async () => {
        const grown = await growth(call, false, SLOW_CALLS);
        assert.ok(grown < MOST, `${grown} bytes more`);
    });
}

for (const [name, call] of Object.entries(calls)) {
    test(`${name}: ${CALLS} calls`, async () => {
        const grown = await growth(call, false);
        assert.ok(grown < MOST, `${grown} bytes more`);
    });
}

const beyond = semver.leastBeyond('>1.2.9007199254740991', '<1');
const few = {
    maxSatisfying: () => semver.maxSatisfying(versions, '^1.2.0-rc.0'),
    sort: () => semver.sort([...versions]),
    'maxSatisfying, one version that no text writes': () => semver.maxSatisfying([...versions, beyond], '^1.2.0-rc.0'),
    'sort, one version that no text writes': () => semver.sort([...versions, beyond]),
    'sort, holes': () => semver.sort([...versions, , '1.0.0']),
    'sort, refused': () => assert.throws(() => semver.sort([...versions, 'x'])),
};

for (const [name, call] of Object.entries(few)) {
    test(`${name}: ${CALLS / 10} calls`, async () => {
        const grown = await growth((i) => i % 10 === 0 && call(), false);
        assert.ok(grown < MOST, `${grown} bytes more`);
    });
}

// A short text that was cut from a long one, in each form in which it may be kept.
const bodies = {
    satisfies: (text) => semver.satisfies('1.2.3', text),
    validRange: (text) => semver.validRange(text),
    'a String': (text) => semver.validRange(new String(text)),
    maxSatisfying: (text) => semver.maxSatisfying(['1.2.3'], text),
    'Range.test': (text) => new semver.Range(text).test('1.2.3'),
    'a version': (text) => semver.valid(text.slice(2, 17)),
};

for (const [name, call] of Object.entries(bodies)) {
    test(`${name}: 600 texts that were cut from texts of 4 MB`, () => {
        const before = process.memoryUsage().rss;
        for (let i = 0; i < 600; i++) {
            const page = `${`>=1.${i}.0-${name.length} <2.0.${i}`.padEnd(24)} ${'x'.repeat(4 << 20)}${i}`;
            call(page.slice(0, 24));
        }
        globalThis.gc();
        const grown = process.memoryUsage().rss - before;
        assert.ok(grown < 200 << 20, `${grown} bytes more`);
    });
}

// What no text writes is held by an object of JavaScript alone.
const beyondAll = { lower: { kind: 'before', version: beyond }, upper: { kind: 'end' } };
const held = {
    'a version that no text writes': () => semver.leastBeyond('>1.2.9007199254740991', '<1'),
    'a range that no text writes': () => semver.Range.fromSets(Array(50).fill(beyondAll)),
};

for (const [name, call] of Object.entries(held)) {
    test(`${name}: ${CALLS / 10} objects`, async () => {
        const grown = await growth((i) => i % 10 === 0 && call(i), true);
        assert.ok(grown < MOST, `${grown} bytes more`);
    });
}
