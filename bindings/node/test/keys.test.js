// SPDX-License-Identifier: Apache-2.0
// Keys of versions and intervals of ranges: against rows, against the order of versions in npm, and against `satisfies` of npm.
'use strict';

const assert = require('node:assert');
const { describe, test } = require('node:test');
const semver = require('..');
const { createNpm } = require('./npm.js');

const npm = createNpm();
const numbers = ['0', '1', '2', '10', '239', '240', '256', '9007199254740991'];
const prereleases = ['', '-0', '-1', '-10', '-240', '-1.a', '-a', '-a.0', '-a.a', '-a-', '-aa', '-A', '--', '-rc.4'];
const releases = numbers.flatMap((major) => ['0', '2', '256'].flatMap((minor) => ['0', '3'].map((patch) =>
    `${major}.${minor}.${patch}`)));
const versions = [
    ...releases,
    ...['0.0.0', '1.2.3', '2.0.0'].flatMap((release) => prereleases.map((prerelease) => release + prerelease)),
    '1.2.3+build', '1.2.3-rc.4+build',
];
const ranges = [
    '', '1', '^1.2.3', '~1.2', '>1.2', '<=1.2', '<1.2.3', '1.2.3', '^0.0.3', '^1.2.3-rc.4', '~1.2.3-0', '>1.2.3-a',
    '<1.2.3-rc.4', '<=1.2.3-a.0', '1.2.3-a - 1.2.3-aa', '1.2.3-a - 2.0.0-a', '<1.2.3-a || >=1.2.3-aa', '>2 <1',
    '>=1.2.3-a <2 || >=1.2.3-aa <3', '^1.2.3-rc.4 || ^2.0.0-0', '240 || 256', '>=1.2.3-0 <1.2.3', '1 || 2 || 9',
];

describe('keys', () => {
    const rows = [
        ['1.2.3', '010203ff'], ['1.2.3+build', '010203ff'], ['1.2.240', '0102f1f0ff'], ['1.2.3-rc.4', '01020302726300010400'],
        ['9007199254740991.0.0', 'f71fffffffffffff0000ff'],
    ];
    for (const [version, bytes] of rows) {
        test(`of ${version}`, () => {
            const key = semver.key(version);
            assert.ok(Buffer.isBuffer(key));
            assert.strictEqual(key.toString('hex'), bytes);
            assert.deepStrictEqual(semver.key(new semver.SemVer(version)), key);
        });
    }
    test('of a loose version, and with a v', () => {
        assert.deepStrictEqual(semver.key('=v01.2.3rc.4', true), semver.key('1.2.3-rc.4'));
        assert.deepStrictEqual(semver.key('v1.2.3'), semver.key('1.2.3'));
    });
    test('of a long version, and of one that no text writes', () => {
        assert.strictEqual(semver.key(`1.2.3-${Array(125).fill('a').join('.')}`).length, 379);
        const beyond = semver.leastBeyond('>1.2.9007199254740991', '<1');
        assert.ok(Buffer.compare(semver.key('1.2.9007199254740991'), semver.key(beyond)) < 0);
    });
    test('are in the order of the versions', () => {
        for (const one of versions) {
            for (const other of versions) {
                const order = Buffer.compare(semver.key(one), semver.key(other));
                assert.strictEqual(order, npm.compare(one, other), `${one} ${other}`);
            }
        }
    });
    test('what is no version', () => {
        for (const version of ['1.2', '', 'v', null, undefined, 1, {}, `1.2.3-${'a'.repeat(251)}`]) {
            assert.throws(() => semver.key(version), TypeError);
        }
        const changed = new semver.SemVer('1.2.3');
        changed.prerelease = ['a b'];
        changed.format();
        assert.throws(() => semver.key(changed), TypeError);
    });
});

describe('intervals', () => {
    const shown = (range) => range.intervals().map(({ lower, upper, prereleases: kind }) =>
        `${lower.toString('hex')} ${upper.toString('hex')}${kind ? ' p' : ''}`);
    const rows = [
        ['^1.2.3', ['010203ff 020000010000']], ['1.2.3', ['010203ff 010203ff00']], ['>1.2.3', ['010203ff00 ff']],
        ['<1.2.3-a', [' 01020302610000', '010203010000 01020302610000 p']],
        ['^1.2.3-rc.4', ['01020302726300010400 020000010000', '01020302726300010400 010203ff p']],
    ];
    for (const [text, intervals] of rows) {
        test(`of ${text}`, () => assert.deepStrictEqual(shown(new semver.Range(text)), intervals));
    }
    test('with prereleases included, for both kinds', () => {
        const wanted = new semver.Range('1.2.3', { includePrerelease: true });
        assert.deepStrictEqual(shown(wanted), ['010203ff 010203ff00', '010203ff 010203ff00 p']);
    });
    for (const includePrerelease of [false, true]) {
        test(`have the keys of the versions that satisfy the range${includePrerelease ? ', with prereleases' : ''}`, () => {
            for (const text of ranges) {
                const intervals = new semver.Range(text, { includePrerelease }).intervals();
                for (const version of versions) {
                    const key = semver.key(version), kind = semver.prerelease(version) !== null;
                    const lies = intervals.some(({ lower, upper, prereleases: of }) =>
                        of === kind && Buffer.compare(lower, key) <= 0 && Buffer.compare(key, upper) < 0);
                    assert.strictEqual(lies, npm.satisfies(version, text, { includePrerelease }), `${version} ${text}`);
                }
            }
        });
    }
    test('of a thousand sets', () => {
        const text = Array.from({ length: 1000 }, (_, i) => `${2 * i}.0.0`).join('||');
        assert.strictEqual(new semver.Range(text).intervals().length, 1000);
    });
});
