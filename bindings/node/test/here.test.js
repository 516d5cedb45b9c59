// SPDX-License-Identifier: Apache-2.0
// The package on its own: worked rows, other types, options, and errors.
'use strict';

const assert = require('node:assert');
const { describe, test } = require('node:test');
const semver = require('..');
const { createNpm } = require('./npm.js');

const npm = createNpm();
const wanted = '^1.2.3-rc.4 || >=3';

describe('worked rows', () => {
    const rows = [
        [() => semver.satisfies('1.9.0', wanted), true],
        [() => semver.satisfies('1.2.3-rc.5', wanted), true],
        [() => semver.satisfies('3.0.0', wanted), true],
        [() => semver.satisfies('2.0.0', wanted), false],
        [() => semver.satisfies('1.2.4-rc.6', wanted), false],
        [() => semver.satisfies('1.2', '1'), false],
        [() => semver.satisfies('1.2.3', 'foo'), false],
        [() => semver.satisfies(' 1.2.3\n', '\t>=1\n<2 '), true],
        [() => semver.maxSatisfying(['1.0.0', 'bad', 'v1.2.3', '1.2.3+b', '2.0.0'], '^1'), 'v1.2.3'],
        [() => semver.maxSatisfying(['1.0.0', '=1.2.3beta', '2.0.0'], '>=1.0.0-0 <2', true), '1.0.0'],
        [() => semver.maxSatisfying(['1.0.0', '=1.2.3beta', '2.0.0-0'], '1.x', { loose: true, includePrerelease: true }),
            '=1.2.3beta'],
        [() => semver.minSatisfying(['1.2.0', '1.1.0-a', '1.1.0-b'], '^1.0.0', { includePrerelease: true }), '1.1.0-a'],
        [() => semver.satisfies('1.3.0-rc', '^1', { includePrerelease: true }), true],
        [() => semver.satisfies('1.2.3beta', '1.2.3-beta'), false],
        [() => semver.satisfies('1.2.3beta', '1.2.3-beta', { loose: true }), true],
        [() => semver.validRange('>=1 <5 >=2'), '>=1.0.0 <5.0.0-0 >=2.0.0'],
        [() => semver.validRange(''), '*'],
        [() => semver.validRange('<=20'), '<21.0.0-0'],
        [() => semver.validRange('<=20', { includePrerelease: true }), '<21.0.0-0'],
        [() => semver.validRange('2 - 1'), '>=2.0.0 <2.0.0-0'],
        [() => semver.validRange('1.x foo'), null],
        [() => semver.validRange('1.x foo', true), '>=1.0.0 <2.0.0-0'],
        [() => semver.maxSatisfying(['1.0.0'], '^3'), null],
        [() => semver.maxSatisfying([], '*'), null],
        [() => semver.maxSatisfying(['1.0.0'], 'foo'), null],
        [() => semver.minSatisfying(['1.5.0', 'bad', '1.2.3+b', 'v1.2.3', '0.1.0'], '^1'), '1.2.3+b'],
        [() => String(semver.minVersion('>1.0.0-a')), '1.0.0-a.0'],
        [() => semver.minVersion('>1.0.0 <1.0.1-beta'), null],
        [() => semver.minVersion('>1.0.0-a <1.0.0-a.0'), null],
        [() => semver.validRange(wanted), '>=1.2.3-rc.4 <2.0.0-0||>=3.0.0'],
        [() => semver.validRange('foo'), null],
        [() => String(semver.intersect('>=1.2', '<3 || 4')), '>=1.2.0 <3.0.0-0||>=4.0.0 <5.0.0-0'],
        [() => semver.intersect('1', '2'), null],
        [() => String(semver.difference('>=1.2.3', '2.0.0 || >3.0.0')), '>=1.2.3 <2.0.0||>2.0.0 <=3.0.0'],
        [() => semver.difference('1', '>=1'), null],
        [() => String(semver.leastBeyond('^1.2.3 || ^2', '^1.2.3')), '2.0.0'],
        [() => semver.leastBeyond('^1.2.3', '^1.2.3 || ^2'), null],
        [() => String(semver.leastCommon('^2.0.0-rc.1', '>=1.5')), '2.0.0'],
        [() => String(semver.leastCommon('^1.2.3-rc.4', '>=1.2.3-rc.2 <1.2.3')), '1.2.3-rc.4'],
        [() => String(semver.leastCommon('>1.0.0-a <1.0.0-b', '>=1.0.0-a.0 <2')), '1.0.0-a.0'],
        [() => semver.leastCommon('1 - 2', '3'), null],
        [() => semver.leastCommon('>=1.0.0-a <1.0.0', '>=0.9'), null],
        [() => semver.subset('1 - 2', '1 || 2'), false],
        [() => semver.subset('^1.2', '>=1 <3'), true],
        [() => semver.intersects('<1.2.3', '>1.2.3'), false],
        [() => semver.clean(' =v1.2.3+b '), '1.2.3'],
        [() => semver.valid('=1.2.3'), null],
        [() => semver.valid('=1.2.3', true), '1.2.3'],
        [() => semver.valid('1.2.34.5', { loose: true }), '1.2.3-4.5'],
        [() => semver.compareBuild('1.0.0+b', '1.0.0+a.1'), 1],
        [() => semver.compareBuild('1.0.0', '1.0.0+a'), -1],
        [() => semver.inc('1.2.3', 'prerelease', 'beta'), '1.2.4-beta.0'],
        [() => semver.inc('1.2.3-beta.4', 'patch'), '1.2.3'],
        [() => semver.inc('1.2.3', 'other'), null],
        [() => semver.diff('1.2.3', '1.3.0-rc.1'), 'preminor'],
        [() => semver.diff('1.2.3', '1.2.3+b'), null],
        [() => String(semver.coerce('release 1.2, of 2024')), '1.2.0'],
        [() => String(semver.coerce('release 1.2, of 2024', { rtl: true })), '2024.0.0'],
        [() => semver.coerce('none'), null],
        [() => String(semver.coerce('build 65535.65535.65535, 2')), '65535.65535.65535'],
        [() => String(semver.coerce('build 65536.0.1')), '65536.0.1'],
        [() => String(semver.coerce('build 1.2.65536')), '1.2.65536'],
        [() => String(semver.coerce('é 1.2')), '1.2.0'],
        [() => String(semver.coerce(`${' '.repeat(96)}1.2`)), '1.2.0'],
        [() => String(semver.coerce(`${' '.repeat(95)}1`)), '1.0.0'],
        [() => String(semver.coerce('v1.2-rc.1 x', { includePrerelease: true })), '1.2.0-rc.1'],
        [() => String(semver.coerce('1.2.3.4-a+b', { includePrerelease: true, rtl: true })), '2.3.4-a'],
        [() => semver.coerce('01.2-a', { includePrerelease: true }), null],
        [() => String(semver.coerce('1-2.3.4.5é', { includePrerelease: true, rtl: true })), '1.0.0-2.3.4.5'],
        [() => semver.gtr('2.0.0', '^1.2'), true],
        [() => semver.ltr('1.1.0', '^1.2'), true],
        [() => semver.outside('1.3.0', '^1.2', '<'), false],
        [() => semver.simplifyRange(['1.0.0', '1.1.0', '2.0.0'], '1.0.0 || 1.1.0 || 1.5.0'), '<=1.1.0'],
    ];
    rows.forEach(([call, expected]) => test(`${call}`.slice(6), () => assert.strictEqual(call(), expected)));
});

describe('what is true of a version that no text writes', () => {
    const beyond = semver.leastBeyond('>1.2.9007199254740991', '<1');
    const long = semver.leastBeyond(`>1.0.0-${'a'.repeat(249)}`, '<0.0.0-0');
    test('it prints', () => assert.strictEqual(String(beyond), '1.2.9007199254740992'));
    test('it satisfies its range', () => assert.ok(semver.satisfies(beyond, '>1.2.9007199254740991')));
    test('it compares', () => assert.strictEqual(semver.compare(beyond, '1.0.0'), 1));
    test('it is sorted', () => assert.deepStrictEqual(semver.sort([beyond, '1.0.0']), ['1.0.0', beyond]));
    test('its text is refused', () => assert.strictEqual(semver.valid(String(beyond)), null));
    test('it may be longer than a text', () => assert.strictEqual(long.version.length, 257));
    test('it is found in a list', () => assert.strictEqual(semver.maxSatisfying([long, '0.1.0'], '>=1.0.0-a'), long));
    test('a range has such an end', () => {
        const range = semver.Range.fromSets([{ lower: { kind: 'before', version: beyond }, upper: { kind: 'end' } }]);
        assert.strictEqual(range.range, '>=1.2.9007199254740992');
        assert.ok(range.test(beyond) && semver.satisfies(beyond, range));
        assert.ok(!range.test('1.2.3') && semver.intersect(range, '<2').test(beyond));
    });
});

// What a call returns, or the name of what it throws.
function outcome(call) {
    try {
        return call();
    } catch (error) {
        return error.constructor.name;
    }
}

describe('null, undefined and other types give what npm gives', () => {
    const values = [null, undefined, 0, 5, true, false, '', {}, [], ['1.2.3'], Symbol('1'), 1n, () => '1.2.3', NaN,
        new Date(0), { version: '1.2.3' }];
    const calls = {
        valid: (s, x) => s.valid(x),
        clean: (s, x) => s.clean(x),
        parse: (s, x) => s.parse(x),
        'parse, which throws': (s, x) => s.parse(x, {}, true),
        major: (s, x) => s.major(x),
        minor: (s, x) => s.minor(x),
        patch: (s, x) => s.patch(x),
        prerelease: (s, x) => s.prerelease(x),
        compare: (s, x) => s.compare(x, '1.2.3'),
        'compare, second': (s, x) => s.compare('1.2.3', x),
        compareBuild: (s, x) => s.compareBuild('1.2.3', x),
        rcompare: (s, x) => s.rcompare('1.2.3', x),
        eq: (s, x) => s.eq(x, x),
        gt: (s, x) => s.gt('1.0.0', x),
        'cmp, first': (s, x) => s.cmp(x, '<', '1.2.3'),
        'cmp, operator': (s, x) => s.cmp('1.2.3', x, '1.2.3'),
        'cmp, same': (s, x) => s.cmp(x, '===', '1.2.3'),
        'cmp, not same': (s, x) => s.cmp('1.2.3', '!==', x),
        'sort, one': (s, x) => s.sort([x]),
        'sort, two': (s, x) => s.sort(['1.2.3', x]),
        'sort, no list': (s, x) => s.sort(x),
        rsort: (s, x) => s.rsort(['1.2.3', x, '2.0.0']),
        'satisfies, version': (s, x) => s.satisfies(x, '^1'),
        'satisfies, version, no range': (s, x) => s.satisfies(x, 'foo bar'),
        'satisfies, range': (s, x) => s.satisfies('1.2.3', x),
        'Range.test': (s, x) => new s.Range('^1').test(x),
        'maxSatisfying, version': (s, x) => s.maxSatisfying(['1.0.0', x], '^1'),
        'maxSatisfying, versions': (s, x) => (Array.isArray(x) ? 'left out' : s.maxSatisfying(x, '^1')),
        'maxSatisfying, range': (s, x) => s.maxSatisfying(['1.0.0'], x),
        'minSatisfying, version': (s, x) => s.minSatisfying(['1.0.0', x], '^1'),
        'minSatisfying, no range': (s, x) => s.minSatisfying(x, 'foo bar'),
        minVersion: (s, x) => s.minVersion(x)?.version,
        validRange: (s, x) => s.validRange(x),
        intersects: (s, x) => s.intersects('1', x),
        subset: (s, x) => s.subset(x, '1'),
        SemVer: (s, x) => new s.SemVer(x),
        'SemVer.compare': (s, x) => new s.SemVer('1.2.3').compare(x),
        Range: (s, x) => new s.Range(x).range,
        Comparator: (s, x) => new s.Comparator(x).value,
        inc: (s, x) => s.inc(x, 'patch'),
        'inc, type': (s, x) => s.inc('1.2.3', x),
        'inc, identifier': (s, x) => s.inc('1.2.3', 'prerelease', {}, x),
        diff: (s, x) => s.diff('1.2.3', x),
        coerce: (s, x) => s.coerce(x)?.version,
        gtr: (s, x) => s.gtr(x, '^1'),
        'ltr, range': (s, x) => s.ltr('1.2.3', x),
        'outside, side': (s, x) => s.outside('1.2.3', '1', x),
        simplifyRange: (s, x) => s.simplifyRange([x], '1.x || 2.x'),
        toComparators: (s, x) => s.toComparators(x),
        'Range.intersects': (s, x) => new s.Range('1').intersects(x),
    };
    for (const [name, call] of Object.entries(calls)) {
        test(name, () => {
            for (const value of values) {
                const theirs = outcome(() => call(npm, value));
                const ours = outcome(() => call(semver, value));
                assert.deepStrictEqual(ours, theirs, `${name} of ${String(value)}`);
            }
        });
    }
});

describe('a SemVer or a Range stands for its text', () => {
    const version = new semver.SemVer('v1.2.3-rc.4+b');
    const range = new semver.Range(wanted);
    test('versions', () => {
        assert.strictEqual(semver.compare(version, '1.2.3-rc.4'), 0);
        assert.strictEqual(semver.compareBuild('1.2.3-rc.4+a', version), -1);
        assert.strictEqual(semver.valid(version), '1.2.3-rc.4');
        assert.strictEqual(semver.parse(version), version);
        assert.strictEqual(new semver.SemVer(version), version);
        assert.ok(semver.satisfies(version, range));
        assert.ok(range.test(version));
        assert.strictEqual(semver.maxSatisfying(['1.2.3-rc.3', version], range), version);
        assert.deepStrictEqual(semver.sort([version, '1.0.0', '1.2.3-rc.4']), ['1.0.0', '1.2.3-rc.4', version]);
    });
    test('equal versions stay in the order in which they stood', () => {
        const equal = ['v1.0.0', '1.0.0', ' 1.0.0', '=01.0.0'];
        assert.deepStrictEqual(semver.sort(['2.0.0', ...equal, '0.1.0'], true), ['0.1.0', ...equal, '2.0.0']);
        assert.deepStrictEqual(semver.rsort(['0.1.0', ...equal, '2.0.0'], true), ['2.0.0', ...equal, '0.1.0']);
    });
    test('ranges', () => {
        assert.strictEqual(new semver.Range(range), range);
        assert.strictEqual(semver.validRange(range), range.range);
        assert.strictEqual(String(semver.minVersion(range)), '1.2.3-rc.4');
        assert.ok(semver.intersects(range, '>=1') && range.intersects(new semver.Range('4')));
        assert.ok(semver.subset('3', range));
    });
    test('parts', () => {
        const other = new npm.SemVer('v1.2.3-rc.4+b');
        assert.deepStrictEqual({ ...version }, { ...other });
        assert.deepStrictEqual({ ...range }, { options: {}, loose: false, includePrerelease: false, raw: wanted });
        assert.deepStrictEqual(range.set.map((one) => one.map((comparator) => ({ ...comparator }.value))),
            [['>=1.2.3-rc.4', '<2.0.0-0'], ['>=3.0.0']]);
        assert.deepStrictEqual(Object.keys(range.set[0][0]), Object.keys(new npm.Range(wanted).set[0][0]));
        assert.strictEqual(`${version} ${range.format()}`, '1.2.3-rc.4 >=1.2.3-rc.4 <2.0.0-0||>=3.0.0');
    });
    test('methods that compare', () => {
        const other = new npm.SemVer('1.2.3-rc.4+b.1');
        const theirs = new npm.SemVer('1.2.3-rc.4+b');
        for (const name of ['compare', 'compareMain', 'comparePre', 'compareBuild']) {
            assert.strictEqual(version[name](other.raw), theirs[name](other), name);
            assert.strictEqual(version[name]('1.2.4'), theirs[name]('1.2.4'), name);
        }
    });
    test('a SemVer is what its fields say', () => {
        for (const { SemVer, compare, satisfies, compareBuild } of [semver, npm]) {
            const changed = new SemVer('1.2.3-rc.4+b');
            changed.prerelease.push(5);
            changed.major++;
            changed.build = [];
            assert.strictEqual(compare(changed, '2.2.3-rc.4.5.0'), -1);
            assert.strictEqual(compareBuild(changed, '2.2.3-rc.4.5+a'), -1);
            assert.ok(satisfies(changed, '2.2.3-rc.4.5'));
            assert.strictEqual(changed.version, '1.2.3-rc.4');
            assert.strictEqual(changed.format(), '2.2.3-rc.4.5');
            assert.strictEqual(String(changed.inc('patch')), '2.2.3');
            assert.strictEqual(changed.raw, '2.2.3');
        }
    });
    test('fields that make no version satisfy no range', () => {
        const changed = Object.assign(new semver.SemVer('1.2.3'), { major: 'x', version: 'x' });
        assert.strictEqual(semver.satisfies(changed, '1'), false);
    });
    test('options make another of it', () => {
        for (const { SemVer, Range } of [semver, npm]) {
            assert.strictEqual(new SemVer(new SemVer('1.2.3+b', true), {}).raw, '1.2.3');
            assert.ok(new Range(new Range('1'), { includePrerelease: true }).test('1.2.0-a'));
            assert.strictEqual(new Range(new Range('1')).test('1.2.0-a'), false);
        }
    });
    test('a Range of a Comparator', () => {
        assert.ok(new semver.Range(new semver.Comparator('>=1.2.3')).test('1.2.4'));
        assert.throws(() => new semver.Range('1').set[0][0].intersects('1'), TypeError);
    });
    test('an intersection admits a prerelease that one of the two ranges refuses', () => {
        const both = semver.intersect('^2.0.0-rc.1', '>=1.5');
        assert.strictEqual(String(both), '>=2.0.0-rc.1 <3.0.0-0');
        assert.ok(both.test('2.0.0-rc.4') && !semver.satisfies('2.0.0-rc.4', '>=1.5'));
    });
    test("those of npm's own package stand for their texts", () => {
        assert.strictEqual(semver.compare(new npm.SemVer('1.2.3'), '1.2.3'), 0);
        assert.ok(semver.satisfies(new npm.SemVer('1.2.3-a'), new npm.Range('>=1.2.3-a || 4')));
        assert.ok(new semver.Range('1').test(new npm.SemVer('1.2.3')));
        assert.strictEqual(semver.maxSatisfying([new npm.SemVer('1.2.3'), '1.0.0'], new npm.Range('1')).version, '1.2.3');
        assert.throws(() => new semver.SemVer({ version: '1.2.3' }), TypeError);
    });
});

describe('options', () => {
    test('an unknown option is ignored, and any truthy value but an object is loose', () => {
        for (const options of [1, 'x', true, () => 1, { loose: 1, other: 2 }]) {
            assert.strictEqual(semver.valid('1.2.3beta', options), '1.2.3-beta');
        }
        for (const options of [undefined, null, 0, '', false, {}, { loose: 0 }, { other: 1 }, []]) {
            assert.strictEqual(semver.valid('1.2.3beta', options), null);
        }
    });
    test('leastBeyond and leastCommon with prereleases included', () => {
        const options = { includePrerelease: true };
        const rows = [
            ['leastBeyond', '>=1.0.0', '1.0.0', '1.0.1-0'], ['leastBeyond', '>1.0.0', '<=1.2.0', '1.2.1-0'],
            ['leastBeyond', '^1', '>=0', 'null'], ['leastCommon', '^2.0.0-rc.1', '>=1.5', '2.0.0-rc.1'],
            ['leastCommon', '>1.0.0', '<2', '1.0.1-0'], ['leastCommon', '1', '2', 'null'],
        ];
        for (const [name, one, other, expected] of rows) {
            const found = semver[name](one, other, options);
            assert.strictEqual(String(found), expected, `${name} ${one} ${other}`);
            const isWanted = (range) => semver.satisfies(found, range, options);
            assert.ok(found === null || (isWanted(one) && isWanted(other) === (name === 'leastCommon')));
        }
    });
    test('intersect and difference of ranges that include prereleases', () => {
        const options = { includePrerelease: true };
        const both = semver.intersect('>=1 <3', '2.x', options);
        assert.strictEqual(String(both), '>=2.0.0-0 <3.0.0-0');
        assert.ok(both.test('2.5.0-rc') && both.includePrerelease);
        assert.ok(semver.difference('>=1', '2.x', options).test('1.5.0-rc'));
        assert.ok(!semver.difference('>=1', '2.x', options).test('2.0.0-rc'));
    });
});

describe('errors say which text is refused', () => {
    const rows = [
        [() => new semver.SemVer('1.2'), 'Invalid Version: 1.2'],
        [() => semver.compare('1.2.3', 'x'), 'Invalid Version: x'],
        [() => semver.compare('x', 'y'), 'Invalid Version: x'],
        [() => semver.sort(['1.2.3', 'x', '1.0.0']), 'Invalid Version: x'],
        [() => new semver.SemVer('1'.repeat(257)), 'version is longer than 256 characters'],
        [() => semver.major(null), 'Invalid version. Must be a string. Got type "object".'],
        [() => new semver.SemVer('1.9007199254740992.3'), 'Invalid minor version'],
        [() => semver.valid('x') ?? semver.major('=1.2.9007199254740992', true), 'Invalid patch version'],
        [() => new semver.Range('1 || foo bar'), 'Invalid comparator: foo'],
        [() => new semver.Range('foo', true), 'Invalid SemVer Range: foo'],
        [() => new semver.Range('foo '.repeat(40), true), `Invalid SemVer Range: ${'foo '.repeat(40).trim()}`],
        [() => new semver.Comparator('>x'), 'Invalid comparator: >x'],
        [() => semver.outside('1.2.3', '1', '='), 'Must provide a hilo val of "<" or ">"'],
        [() => semver.cmp('1.2.3', '<>', '1.2.3'), 'Invalid operator: <>'],
    ];
    rows.forEach(([call, message]) => test(message.slice(0, 60), () =>
        assert.throws(call, { name: 'TypeError', message })));
});
