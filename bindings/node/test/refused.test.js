// SPDX-License-Identifier: Apache-2.0
// Each request for memory of each call refused in turn: the call throws `ERR_MEMORY_ALLOCATION_FAILED` or returns what it returns
// otherwise, loses no block, and may be made again.
'use strict';

const assert = require('node:assert');
const path = require('node:path');
const { test } = require('node:test');
const { build, outcome, refuse, testEach } = require('./refused/refuse.js');

const copy = build('node_semver');
const semver = require(copy.room);
const native = require(path.join(copy.room, 'internal/native.js'));
semver.valid('1.2.3-a');

const long = '^1.2.3-alpha.1 || '.repeat(40) + '>=2.0.0-rc.1';
const ranges = ['>=1.2.3-rc.4.a.b <2.0.0-beta.9+c || 5.x || 7.1.2-x', long].map((text) => new semver.Range(text));
const versions = Array.from({ length: 20 }, (_, i) => `1.${i * 7 % 20}.0-rc.${i}.a+b.${i}`);
const many = new semver.Range('>=1.2.3 || '.repeat(9) + '^1.2.3-rc.1');
const beyond = semver.leastBeyond('>1.2.9007199254740991', '<1');
const build250 = `1.0.0+${'a.'.repeat(120)}b`;

const calls = {
    valid: () => semver.valid('1.2.3-rc.1.a+b.c'),
    'new SemVer': () => new semver.SemVer('1.2.3-rc.1.a+b.c').build,
    parse: () => semver.parse('1.2.3-rc.1.a+b.c').version,
    'parse, refused': () => semver.parse('1.2'),
    compare: () => semver.compare('1.2.3-rc.1.a', '1.2.3-rc.1.b'),
    compareBuild: () => semver.compareBuild(build250, `${build250}c`),
    'compareBuild, of two parts': () => new semver.SemVer('1.2.3+a').compareBuild('1.2.3+b'),
    comparePre: () => new semver.SemVer('1.2.3-a.b').comparePre('1.2.3-a.c'),
    sort: () => semver.sort([...versions]),
    'sort, refused': () => { try { semver.sort([...versions, 'x']); } catch (error) { return rethrown(error); } },
    'sort, what no text writes': () => semver.sort([beyond, ...versions]).map(String),
    maxSatisfying: () => semver.maxSatisfying(versions, '^1.2.0-rc.1'),
    minSatisfying: () => semver.minSatisfying(versions, ranges[1]),
    'satisfies, kept': () => semver.satisfies('1.2.3-rc.5', '^1.2.3-rc.4'),
    'satisfies, long': () => semver.satisfies('1.2.3-beta', long),
    validRange: () => semver.validRange(long),
    'new Range, long': () => new semver.Range(long).range,
    intersect: () => String(semver.intersect(ranges[0], ranges[1])),
    difference: () => String(semver.difference(ranges[1], ranges[0])),
    'intersect, what no text writes': () => String(semver.intersect('>1.2.9007199254740991 <2', '>1')),
    leastBeyond: () => String(semver.leastBeyond(ranges[0], ranges[1])),
    leastCommon: () => String(semver.leastCommon(ranges[0], ranges[1])),
    minVersion: () => String(semver.minVersion(ranges[0])),
    'leastBeyond, what no text writes': () => String(semver.leastBeyond('>1.2.9007199254740991', '<1')),
    'satisfies, with prereleases': () => semver.satisfies('1.2.3-beta', long, { includePrerelease: true }),
    'maxSatisfying, with prereleases': () => semver.maxSatisfying(versions, '^1.2', { includePrerelease: true }),
    'satisfies, loose': () => semver.satisfies('=v1.2.3beta', '>1.2.3alpha', true),
    toComparators: () => JSON.stringify(semver.toComparators('^1.2.3-rc.1.a || 1.x - 2.3.4 || >= 1 <3')),
    'Comparator.test': () => new semver.Comparator('>=1.2.3-rc.1.a').test('1.2.3-rc.1.b'),
    diff: () => semver.diff('1.2.3-rc.1.a', '1.2.3'),
    inc: () => semver.inc('1.2.3-rc.1.a', 'prerelease'),
    coerce: () => String(semver.coerce('a 1.2.3.4 b')),
    'coerce, with prerelease': () => String(semver.coerce('a 1.2.3-rc.1.a b', { includePrerelease: true })),
    gtr: () => semver.gtr('9.0.0', ranges[0]),
    simplifyRange: () => semver.simplifyRange(['1.2.3', '1.3.0', '2.0.0'], '^1.2.3-rc.1.a || ^1.3.0 || ^1.4'),
    sets: () => JSON.stringify(ranges[0].sets),
    'refusedAt, refused': () => native.refusedAt(`0${long} foo`),
    'refusedAt, read': () => native.refusedAt(`0${long}`),
    'sets, what no text writes': () => String(semver.Range.fromSets([{ lower: { kind: 'before', version: beyond },
        upper: { kind: 'end' } }])?.sets[0].lower.version ?? null),
    fromSets: () => String(semver.Range.fromSets(ranges[0].sets)),
    key: () => semver.key('1.2.3-rc.1.a').toString('hex'),
    'key, what no text writes': () => semver.key(beyond).toString('hex'),
    intervals: () => JSON.stringify(ranges[0].intervals()),
    subset: () => semver.subset(ranges[0], ranges[1]),
    intersects: () => semver.intersects(ranges[0], ranges[1]),
    'intersect, many sets': () => semver.intersect(many, many).sets.length,
    'intersect, many sets, printed': () => semver.intersect(many, many).raw,
};

function rethrown(error) {
    if (error instanceof TypeError) {
        return error.message;
    }
    throw error;
}

testEach(copy, calls, 300);

test('a range is not kept if memory runs out as it is read', () => {
    for (let n = 1; n < 5; n++) {
        const text = `>=1.2.3-rc.${n}.a.b <2`;
        refuse(copy, n);
        outcome(() => semver.satisfies('1.2.3', text));
        refuse(copy, 0);
        assert.strictEqual(semver.satisfies('1.2.3', text), true);
        assert.strictEqual(semver.satisfies('2.2.3', text), false);
    }
});

test('a long range takes no place if memory runs out as it is read', () => {
    const text = (i) => `${'>=1.2.3 '.repeat(20)}<2.${i}.0`;
    for (let i = 0; i < 130; i++) {
        semver.valid('1.2.3-a');
        refuse(copy, 1);
        assert.throws(() => new semver.Range(text(i)), { code: 'ERR_MEMORY_ALLOCATION_FAILED' });
        refuse(copy, 0);
    }
    assert.strictEqual(semver.validRange(text(0)), '>=1.2.3 <2.0.0');
    assert.strictEqual(semver.maxSatisfying(['1.2.3', '1.9.0', '2.0.0'], text(1)), '2.0.0');
});
