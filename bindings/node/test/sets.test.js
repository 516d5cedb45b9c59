// SPDX-License-Identifier: Apache-2.0
// The sets of a range, and lists and ranges of a thousand.
'use strict';

const assert = require('node:assert');
const { describe, test } = require('node:test');
const semver = require('..');
const { createNpm } = require('./npm.js');
const { Texts } = require('./texts.js');

const npm = createNpm();

describe('the sets of a range', () => {
    const before = (version) => ({ kind: 'before', version: version && new semver.SemVer(version) });
    const after = (version) => ({ kind: 'after', version: new semver.SemVer(version) });
    const [start, end] = ['start', 'end'].map((kind) => ({ kind, version: null }));
    const rows = [
        ['^1.2.3', [{ lower: before('1.2.3'), upper: before('2.0.0-0') }]],
        ['>1.0.0-a <=2.0.0+b', [{ lower: after('1.0.0-a'), upper: after('2.0.0') }]],
        ['<1 || >=3.0.0-rc.1', [{ lower: start, upper: before('1.0.0-0') }, { lower: before('3.0.0-rc.1'), upper: end }]],
        ['1.2.3 || 1.2.3', Array(2).fill({ lower: before('1.2.3'), upper: after('1.2.3') })],
    ];
    const shown = (sets) => sets.map(({ lower, upper }) =>
        [lower, upper].map(({ kind, version }) => [kind, version?.raw]));
    for (const [text, sets] of rows) {
        const range = new semver.Range(text);
        test(`of ${text}`, () => assert.deepStrictEqual(shown(range.sets), shown(sets)));
        test(`a range from those of ${text}`, () => {
            assert.strictEqual(String(semver.Range.fromSets(sets)), String(range));
            assert.strictEqual(String(semver.Range.fromSets(range.sets)), String(range));
        });
    }
    test('texts of versions, and ends without a version', () => {
        const sets = [{ lower: { kind: 'before', version: '1.2.3' }, upper: { kind: 'end' } }];
        assert.strictEqual(String(semver.Range.fromSets(sets)), '>=1.2.3');
        assert.strictEqual(String(semver.Range.fromSets(new Set(sets))), '>=1.2.3');
    });
    test('a version that no text writes', () => {
        const beyond = semver.leastBeyond('>1.2.9007199254740991', '<1');
        const range = semver.Range.fromSets([{ lower: before(beyond), upper: end }]);
        assert.strictEqual(range.sets[0].lower.version.raw, '1.2.9007199254740992');
        assert.strictEqual(String(range), '>=1.2.9007199254740992');
        assert.strictEqual(String(semver.Range.fromSets([{ lower: start, upper: before('1.0.0') }])), '<1.0.0');
    });
    test('of generated ranges: the range from them has the same', () => {
        const texts = new Texts(5);
        let count = 0;
        for (let i = 0; i < 5000; i++) {
            const text = texts.range();
            for (const options of [{}, { loose: true }, { includePrerelease: true }]) {
                if (semver.validRange(text, options) !== null) {
                    const { sets } = new semver.Range(text, options);
                    assert.deepStrictEqual(shown(semver.Range.fromSets(sets).sets), shown(sets), text);
                    count++;
                }
            }
        }
        assert.ok(count > 5000, `${count} ranges`);
    });
    test('there is no such range', () => {
        const none = [[], [{ lower: before('2.0.0'), upper: before('1.0.0') }],
            [{ lower: after('1.0.0'), upper: before('1.0.0') }], [{ lower: { kind: 'before' }, upper: end }],
            [{ lower: end, upper: start }]];
        none.forEach((sets) => assert.strictEqual(semver.Range.fromSets(sets), null, JSON.stringify(sets)));
    });
    test('what is no set throws', () => {
        const wrong = [undefined, null, 5, [null], [{}], [{ lower: start }], ...[
            { kind: 'Before', version: '1.0.0' }, { kind: 'before', version: 'x' }, { kind: 'before', version: 5 },
            { kind: 1, version: '1.0.0' }, { version: '1.0.0' }].map((lower) => [{ lower, upper: end }])];
        wrong.forEach((sets) => assert.throws(() => semver.Range.fromSets(sets), TypeError, JSON.stringify(sets)));
    });
});

// A list or a range that a test of a few would not tell from one that is cut short.
describe('a thousand', () => {
    const COUNT = 1000;
    const numbers = Array.from({ length: COUNT }, (_, i) => i * 617 % COUNT);
    const versions = numbers.map((i) => `1.${i}.0${i % 7 === 0 ? '-rc.1' : ''}`);
    const range = numbers.map((i) => `1.${i}.0`).join(' || ');
    const inOrder = Array.from({ length: COUNT }, (_, i) => `1.${i}.0${i % 7 === 0 ? '-rc.1' : ''}`);
    test('versions are sorted', () => {
        assert.deepStrictEqual(semver.sort([...versions]), inOrder);
        assert.deepStrictEqual(semver.rsort([...versions]), [...inOrder].reverse());
        assert.deepStrictEqual(semver.sort([...versions]), npm.sort([...versions]));
    });
    test('the greatest and the least of versions', () => {
        assert.strictEqual(semver.maxSatisfying(versions, '^1'), '1.999.0');
        assert.strictEqual(semver.minSatisfying(versions, '^1'), '1.1.0');
        for (const i of [0, 1, 2, 255, 256, 257, 511, 998, 999]) {
            assert.strictEqual(semver.maxSatisfying(versions, `1.${i}.0-rc.1 || 1.${i}.0`), inOrder[i]);
            assert.strictEqual(semver.minSatisfying(versions, `>=1.${i}.0-0`), inOrder[i]);
        }
    });
    test('sets of a range', () => {
        const read = new semver.Range(range);
        assert.strictEqual(String(read), range.replaceAll(' ', ''));
        assert.strictEqual(read.sets.length, COUNT);
        assert.strictEqual(String(semver.Range.fromSets(read.sets)), String(read));
        for (let i = 0; i < COUNT; i++) {
            assert.ok(read.test(`1.${i}.0`) && semver.satisfies(`1.${i}.0`, range), String(i));
            assert.ok(!read.test(`1.${i}.1`) && !semver.satisfies(`1.${i}.1`, range), String(i));
        }
        assert.strictEqual(semver.maxSatisfying(numbers.map((i) => `1.${i}.0`), range), '1.999.0');
    });
    test('the algebra of ranges', () => {
        const read = new semver.Range(range);
        assert.strictEqual(semver.intersect(read, '^1').sets.length, COUNT);
        assert.strictEqual(String(semver.intersect(range, '>=1.998.0')), [...numbers].filter((i) => i >= 998)
            .map((i) => `1.${i}.0`).join('||'));
        assert.strictEqual(semver.difference('^1', read).sets.length, COUNT);
        assert.strictEqual(String(semver.minVersion(read)), '1.0.0');
        assert.strictEqual(String(semver.leastBeyond(read, '<1.999.0')), '1.999.0');
        assert.strictEqual(String(semver.leastCommon(read, '>=1.998.1')), '1.999.0');
        assert.ok(semver.subset(read, '^1') && !semver.subset('^1', read) && semver.subset(read, range));
        assert.ok(semver.intersects(read, '1.999.0') && !semver.intersects(read, '>=1.999.1'));
    });
});

// The intersection and the difference of ranges may have a set for each pair.
describe('pairs of sets', () => {
    const repeated = (text, count) => Array(count).fill(text).join(' || ');
    const range = semver.intersect(repeated('^1.2.3', 100), repeated('>=1.5 <3', 100));
    test('a range of many sets', () => {
        assert.ok(range.test('1.6.0') && !range.test('1.4.0') && !range.test('2.0.0'));
        assert.strictEqual(range.sets.length, 10000);
        assert.deepStrictEqual(Object.keys(range), ['options', 'loose', 'includePrerelease', 'raw']);
        const text = repeated('>=1.5.0 <2.0.0-0', 10000).replaceAll(' || ', '||');
        assert.strictEqual(range.raw, text);
        assert.strictEqual(Object.assign(semver.intersect(range, '*'), { raw: 'x' }).raw, 'x');
        assert.ok(new semver.Range(range, { includePrerelease: true }).test('1.6.0-a'));
        assert.ok(semver.intersect(range, '1.7').test('1.7.3') && semver.satisfies('1.6.0', { ...range }.raw));
    });
    test('above a million pairs there is an error', () => {
        const [some, more] = [1000, 1001].map((count) => new semver.Range(repeated('1.2.3', count)));
        const error = { name: 'RangeError', code: 'ERR_OUT_OF_RANGE' };
        for (const call of [semver.intersect, semver.difference, semver.leastBeyond]) {
            assert.throws(() => call(some, more), error);
            assert.throws(() => call(more, some), error);
        }
        assert.ok(semver.intersect(some, some).test('1.2.3'));
        assert.strictEqual(semver.difference(some, some), null);
        assert.strictEqual(semver.leastBeyond(some, some), null);
        assert.ok(semver.intersect(more, '1 || 2').test('1.2.3'));
        assert.strictEqual(String(semver.leastCommon(more, more)), '1.2.3');
    });
});
