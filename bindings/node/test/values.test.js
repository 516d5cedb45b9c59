// SPDX-License-Identifier: Apache-2.0
// Lists that change as they are read, values of other types, and long builds and prereleases: as with npm.
'use strict';

const assert = require('node:assert');
const { describe, test } = require('node:test');
const { inspect } = require('node:util');
const semver = require('..');
const { createNpm } = require('./npm.js');

const npm = createNpm();

// What a call returns, as it is shown, or that it throws.
function outcome(call) {
    try {
        const result = call();
        return inspect(result?.version ?? result?.raw ?? result);
    } catch {
        return 'throws';
    }
}

// Each call here and in npm's `semver`, on arguments that are made anew.
function isAsNpm(name, make, call) {
    test(name, () => assert.deepStrictEqual(outcome(() => call(semver, make())), outcome(() => call(npm, make()))));
}

describe('lists are as with npm', () => {
    const lists = {
        'holes': () => ['2.0.0', , '1.0.0', , '0.1.0'],
        'holes and undefined': () => ['2.0.0', , undefined, '1.0.0', , undefined],
        'holes alone': () => [, , ,],
        'one hole and a value that is no version': () => [, 5],
        'undefined alone': () => [undefined, undefined],
        'the list grows as it is read': () => {
            const list = ['1.0.0', '1.1.0'];
            return Object.defineProperty(list, 0, { get() { list[2] = '1.9.0'; return '1.0.0'; }, set() {} });
        },
        'the list changes as it is read': () => {
            const list = ['1.0.0', '1.1.0', '1.2.0'];
            return Object.defineProperty(list, 1, { get() { list[0] = '9.9.9'; return '0.5.0'; }, set() {} });
        },
        'the list shrinks as it is read': () => {
            const list = ['1.0.0', '1.1.0', '1.2.0'];
            return Object.defineProperty(list, 0, { get() { list.length = 1; return '1.0.0'; }, set() {} });
        },
        'a getter returns another version at each call': () => {
            let count = 0;
            return Object.defineProperty(['1.0.0', '1.1.0'], 0, { get() { return `1.${++count}.0`; }, set() {} });
        },
        'a getter throws': () => Object.defineProperty(['1.0.0', '1.1.0'], 0, { get() { throw new RangeError('x'); } }),
        'a proxy of a list': () => new Proxy(['2.0.0', , '1.0.0'], {}),
        'a list of one that is no version': () => ['x'],
        'a frozen list of one': () => Object.freeze(['1.0.0']),
        'an empty frozen list': () => Object.freeze([]),
        'a frozen list in order': () => Object.freeze(['1.0.0', '1.1.0']),
        'a list of numbers': () => ['1.0.0', 'x', 5],
        'a frozen list': () => Object.freeze(['2.0.0', '1.0.0']),
        'a list whose length is fixed, with a hole': () => Object.preventExtensions(['2.0.0', , '1.0.0']),
        'a class of lists': () => (class extends Array {}).from(['2.0.0', '1.0.0', '1.5.0']),
        'a list with a sort of its own': () => Object.assign(['2.0.0', '1.0.0'], { sort: () => 'own' }),
        'a list with a filter of its own': () => Object.assign(['2.0.0', '1.0.0'], { filter: () => ['x'] }),
        'an array of numbers': () => new Float64Array(3),
        'texts of several lines': () => ['1.0.0', '1.0.0\n1.5.0', '\n', '1.2.0\n'],
        'refused texts, null and undefined': () => ['1.0.0', 'x', '', null, undefined, '1.5.0'],
        'a Set': () => new Set(['1.0.0', '1.5.0', '2.0.0']),
        'a Map': () => new Map([['1.0.0', '1.1.0'], ['x', '1.5.0']]),
    };
    for (const [name, make] of Object.entries(lists)) {
        isAsNpm(`maxSatisfying: ${name}`, make, (s, list) => s.maxSatisfying(list, '^1'));
        isAsNpm(`minSatisfying: ${name}`, make, (s, list) => s.minSatisfying(list, '^1 || 2'));
        isAsNpm(`sort: ${name}`, make, (s, list) => s.sort(list));
        isAsNpm(`rsort: ${name}`, make, (s, list) => s.rsort(list));
    }
});

function revoked(value) {
    const { proxy, revoke } = Proxy.revocable(value, {});
    revoke();
    return proxy;
}

describe('other values are as with npm', () => {
    const values = {
        'a String': () => new String('^1'),
        'a String with white space': () => new String(' >=1  \n<3 '),
        'a String of junk': () => new String('foo bar'),
        'a String that is a version': () => new String('1.2.3'),
        'what trims itself': () => ({ trim: () => '^1' }),
        'what trims itself to nothing of use': () => ({ trim: () => 5 }),
        'what throws as it is trimmed': () => ({ trim() { throw new RangeError('x'); } }),
        'a revoked proxy': () => revoked({}),
        'a revoked proxy of a list': () => revoked([]),
        'a proxy that throws': () => new Proxy({}, new Proxy({}, { get() { throw new RangeError('x'); } })),
    };
    const calls = {
        valid: (s, x) => s.valid(x),
        clean: (s, x) => s.clean(x),
        parse: (s, x) => s.parse(x),
        major: (s, x) => s.major(x),
        compare: (s, x) => s.compare('1.0.0', x),
        compareBuild: (s, x) => s.compareBuild(x, '1.0.0'),
        cmp: (s, x) => s.cmp(x, '===', '1.0.0'),
        'satisfies, version': (s, x) => s.satisfies(x, '^1'),
        'satisfies, version, junk': (s, x) => s.satisfies(x, 'foo bar'),
        'satisfies, range': (s, x) => s.satisfies('1.2.3', x),
        'maxSatisfying, list': (s, x) => s.maxSatisfying(x, '^1'),
        'maxSatisfying, version': (s, x) => s.maxSatisfying(['1.0.0', x], '^1'),
        'maxSatisfying, range': (s, x) => s.maxSatisfying(['1.0.0', '1.2.0'], x),
        sort: (s, x) => s.sort(['1.0.0', x]),
        'sort, list': (s, x) => s.sort(x),
        'validRange, whether': (s, x) => s.validRange(x) !== null,
        minVersion: (s, x) => s.minVersion(x),
        intersects: (s, x) => s.intersects('1.2.3', x),
        'subset, of itself': (s, x) => s.subset(x, x),
        'subset, junk of itself': (s) => s.subset('foo bar', 'foo bar'),
        SemVer: (s, x) => new s.SemVer(x),
        'Range, raw': (s, x) => new s.Range(x).raw,
        test: (s, x) => new s.Range('^1').test(x),
    };
    for (const [value, make] of Object.entries(values)) {
        for (const [name, call] of Object.entries(calls)) {
            isAsNpm(`${name}: ${value}`, make, call);
        }
    }
});

describe('options that throw as they are read', () => {
    const make = () => ({ get loose() { throw new RangeError('x'); }, get rtl() { throw new RangeError('x'); } });
    const calls = {
        parse: (s, x) => s.parse('1.0.0', x),
        inc: (s, x) => s.inc('1.0.0', 'minor', x),
        major: (s, x) => s.major('1.0.0', x),
        prerelease: (s, x) => s.prerelease('1.0.0-a', x),
        sort: (s, x) => s.sort(['1.0.0', '1.0.1'].map((text) => new s.SemVer(text)), x),
        coerce: (s, x) => s.coerce('1', x),
        validRange: (s, x) => s.validRange('*', x),
        maxSatisfying: (s, x) => s.maxSatisfying(['1.0.0'], '*', x),
        minSatisfying: (s, x) => s.minSatisfying(['1.0.0'], '*', x),
        minVersion: (s, x) => s.minVersion('*', x),
        toComparators: (s, x) => s.toComparators('*', x),
        outside: (s, x) => s.outside('1.0.0', '^2', '<', x),
        gtr: (s, x) => s.gtr('3.0.0', '^2', x),
        intersects: (s, x) => s.intersects('^1', '^2', x),
        subset: (s, x) => s.subset('^1', '^1.0', x),
        SemVer: (s, x) => new s.SemVer('1.0.0', x),
        Range: (s, x) => new s.Range('^1', x),
        Comparator: (s, x) => new s.Comparator('>1', x),
    };
    for (const [name, call] of Object.entries(calls)) {
        isAsNpm(name, make, call);
    }
    // What npm and this package do otherwise.
    const others = {
        valid: ['null', "'1.0.0'", (s, x) => s.valid('1.0.0', x)],
        clean: ['null', "'1.0.0'", (s, x) => s.clean('1.0.0', x)],
        compare: ['throws', '-1', (s, x) => s.compare('1.0.0', '1.0.1', x)],
        compareBuild: ['throws', '-1', (s, x) => s.compareBuild('1.0.0', '1.0.1', x)],
        cmp: ['throws', 'true', (s, x) => s.cmp('1.0.0', '<', '1.0.1', x)],
        satisfies: ['false', 'throws', (s, x) => s.satisfies('1.0.0', '*', x)],
        simplifyRange: ["''", 'throws', (s, x) => s.simplifyRange(['1.0.0'], '^1', x)],
    };
    for (const [name, [there, here, call]] of Object.entries(others)) {
        test(name, () => {
            assert.strictEqual(outcome(() => call(npm, make())), there);
            assert.strictEqual(outcome(() => call(semver, make())), here);
        });
    }
});

describe('options that each object inherits are as with npm', () => {
    const calls = {
        valid: (s) => [s.valid('1.2.3beta'), s.valid('1.2.3beta', {}), s.valid('x')],
        satisfies: (s) => [s.satisfies('1.2.3beta', '1.2.3-beta'), s.satisfies('1.3.0-a', '^1.2'), s.satisfies('1.2.3', 'x foo')],
        compare: (s) => [s.compare('1.2.3beta', '1.2.4'), s.compareBuild('=1.2.3', '1.2.3+a')],
        sort: (s) => s.sort(['1.2.3beta', '=v0.1.0', '1.0.0']),
        maxSatisfying: (s) => [s.maxSatisfying(['1.2.3beta', '1.2.2-a', '1.2.1'], '^1'), s.minSatisfying(['1.2.3beta'], '*')],
        inc: (s) => [s.inc('1.2.3beta', 'patch'), s.inc('1.2.3', 'minor'), s.inc('1.2.3beta', 'prerelease', 'rc')],
        validRange: (s) => [s.validRange('1.2.3beta'), s.validRange('^1'), s.validRange('>=1 foo')],
        coerce: (s) => [s.coerce('01.2.3-a')?.version, s.coerce('1.2.3-a')?.version],
        subset: (s) => [s.subset('^1.2.3-a', '^1'), s.intersects('<0.0.0', '>=0.0.0-0')],
    };
    for (const name of ['loose', 'includePrerelease']) {
        for (const [called, call] of Object.entries(calls)) {
            test(`${name}: ${called}`, () => {
                Object.prototype[name] = true;
                try {
                    assert.strictEqual(outcome(() => call(semver)), outcome(() => call(npm)));
                } finally {
                    delete Object.prototype[name];
                }
            });
        }
    }
});

describe('what the README says of values that npm takes otherwise', () => {
    const changed = (s, fields) => Object.assign(new s.SemVer('1.2.3'), fields);
    const ofClass = (s) => new (class extends s.Range { test() { return true; } })('^1');
    // Of a call: what npm returns, and what is returned here.
    const rows = {
        'format of a frozen Range': ['throws', "'>=1.0.0 <2.0.0-0'", (s) => Object.freeze(new s.Range('^1')).format()],
        'a range of a frozen Range': ["'>=1.0.0 <2.0.0-0'", "'>=1.0.0 <2.0.0-0'", (s) => Object.freeze(new s.Range('^1')).range],
        'an overridden test, satisfies': ['true', 'true', (s) => s.satisfies('9.0.0', ofClass(s))],
        'an overridden test, maxSatisfying': ["'9.0.0'", 'null', (s) => s.maxSatisfying(['9.0.0'], ofClass(s))],
        'a major that was changed': ['true', 'true', (s) => s.satisfies(changed(s, { major: 5 }), '^5')],
        'a major that was changed, other options': ['false', 'true', (s) =>
            s.satisfies(changed(s, { major: 5 }), '^5', { includePrerelease: true })],
        'a major that was changed, and format': ['true', 'true', (s) => {
            const version = changed(s, { major: 5 });
            version.format();
            return s.satisfies(version, '^5', { includePrerelease: true });
        }],
        'Range.test of another object': ['true', 'throws', (s) => new s.Range('').test({ prerelease: [] })],
        'Range.test of an object without a prerelease': ['throws', 'throws', (s) => new s.Range('').test({ version: '1.2.3' })],
        '251 letters': ['257', 'throws', (s) => new s.SemVer(`1.2.3${'a'.repeat(251)}`, true).version.length],
        '251 letters, comparePre': ['1', 'throws', (s) => new s.SemVer('1.2.3-b', true).comparePre(`1.2.3${'a'.repeat(251)}`)],
        '250 letters': ['256', '256', (s) => new s.SemVer(`1.2.3${'a'.repeat(250)}`, true).version.length],
        'Comparator.parse of no version': ["'>='", "'>='", (s) => {
            const comparator = new s.Comparator('>=1.2.3');
            assert.throws(() => comparator.parse('>x'), TypeError);
            return comparator.operator;
        }],
        'Comparator.parse of a large number': ["'>'", "'>='", (s) => {
            const comparator = new s.Comparator('>=1.2.3');
            assert.throws(() => comparator.parse('>1.2.9007199254740992'), TypeError);
            return comparator.operator;
        }],
    };
    for (const [name, [there, here, call]] of Object.entries(rows)) {
        test(name, () => {
            assert.strictEqual(outcome(() => call(npm)), there);
            assert.strictEqual(outcome(() => call(semver)), here);
        });
    }
    test('a replaced method is called by name alone', () => {
        for (const [s, expected] of [[npm, 7], [semver, -1]]) {
            const { compare } = s.SemVer.prototype;
            s.SemVer.prototype.compare = () => 7;
            try {
                assert.strictEqual(s.compare('1.0.0', '2.0.0'), expected);
                assert.strictEqual(new s.SemVer('1.0.0').compare('2.0.0'), 7);
            } finally {
                s.SemVer.prototype.compare = compare;
            }
        }
    });
});

describe('SemVers are compared as with npm', () => {
    const texts = ['1.2.3', '1.2.3+b', '1.2.3+a', '1.2.3-rc.1+b', '1.2.3-rc.1+a', '1.2.3-rc.01', '1.2.3-10', '1.2.3-9.x',
        '0.9.9', '1.2.3+10', '1.2.3+9', '1.2.3-a.b', '1.2.3-a.-', '1.2.3--', '1.2.3-rc'];
    const all = [undefined, true, { includePrerelease: true }];
    const make = (s, options) => texts.map((text) => s.parse(text, options)).filter(Boolean);
    for (const own of all) {
        for (const options of all) {
            const name = `${inspect(own)}, asked with ${inspect(options)}`;
            isAsNpm(`sort: ${name}`, () => [], (s) => s.sort(make(s, own), options).map(({ raw }) => raw).join());
            isAsNpm(`rsort: ${name}`, () => [], (s) => s.rsort(make(s, own), options).map(({ raw }) => raw).join());
            isAsNpm(`each two: ${name}`, () => [], (s) => make(s, own).map((one) => make(s, own).map((other) =>
                [s.compare(one, other, options), s.compareBuild(one, other, options), s.diff(one, other),
                    one.compare(other), one.comparePre(other), one.compareBuild(other)].join()).join(' ')).join('\n'));
        }
    }
    const raised = ['beta.1', '01', '9007199254740993', 'a.01', '\u00e9', '-'].flatMap((identifier) =>
        [undefined, false, '1'].map((base) => ['prerelease', identifier, base]));
    const limits = [['1.2.9007199254740991', 'patch'], ['1.9007199254740991.0', 'minor'], ['9007199254740991.0.1', 'major'],
        ['1.2.3-9007199254740990', 'prerelease'], ['1.2.3-9007199254740991', 'prerelease']];
    const others = ['1.2.4', '1.2.4-beta', '1.2.4-beta.1', '1.2.4-beta.1.1', '1.2.4-0', '1.2.4-1', '1.2.4-a.1', '0.1.0',
        '1.2.9007199254740991', '9007199254740991.0.0', '1.2.4-\u00e9'];
    for (const [text, ...words] of [...raised.map((words) => ['1.2.3', ...words]), ...limits]) {
        isAsNpm(`inc ${inspect([text, ...words])}, and then compare`, () => [], (s) => {
            const version = new s.SemVer(text).inc(...words);
            return [version.version, s.inc(text, ...words), ...others.filter((other) => s.valid(other)).map((other) =>
                [s.compare(version, other), s.diff(version, other), version.compareBuild(other)].join())].join(' ');
        });
    }
    test('numbers that JavaScript does not have', () => {
        const read = (texts) => texts.map((text) => new semver.SemVer(text));
        const [one, other] = read(['1.2.3-9007199254740992', '1.2.3-9007199254740993']);
        assert.deepStrictEqual([one.compare(other), other.compare(one), one.comparePre(other)], [-1, 1, -1]);
        const builds = read(['1.2.3+9007199254740992', '1.2.3+9007199254740993']);
        assert.deepStrictEqual([semver.compareBuild(...builds), builds[1].compareBuild(builds[0])], [-1, 1]);
        const beyond = semver.leastBeyond('>1.2.9007199254740991', '<1');
        const after = semver.Range.fromSets([{ lower: { kind: 'after', version: beyond }, upper: { kind: 'end' } }]);
        const further = semver.leastBeyond(after, '<1');
        assert.deepStrictEqual([semver.compare(beyond, further), further.compare(beyond)], [-1, 1]);
    });
    test('fields that a user has set', () => {
        for (const field of ['x', -1, 1.5, '5', null]) {
            const [ours, theirs] = [semver, npm].map(({ SemVer, compare }) => ['1.2.3', '5.0.0', '0.0.1-a'].map((text) =>
                compare(Object.assign(new SemVer('1.2.3'), { major: field, version: 'x' }), text)));
            assert.deepStrictEqual(ours, theirs, inspect(field));
        }
    });
    test('texts of fields that a user has set', () => {
        const texts = () => ({ valueOf: () => 7, toString: () => '8' });
        const fields = [0, -0, 1, 31, 32, 63, 64, 65, 2047, 2 ** 31, 2 ** 32, 2 ** 32 + 1, -1, -32, 1.5, NaN, Infinity, '1', '01', '',
            1n, 31n, true, false, null, undefined, [], [5], {}, texts, texts(), new Number(3), Symbol('a')];
        for (const major of fields) {
            for (const minor of fields) {
                const made = (s) => outcome(() => Object.assign(new s.SemVer('1.2.3'), { major, minor }).format());
                assert.strictEqual(made(semver), made(npm), inspect([major, minor]));
                const raised = (s, ...words) => outcome(() => Object.assign(new s.SemVer('1.2.3-a.1'), { major, minor }).inc(...words));
                for (const words of [['major'], ['minor'], ['patch'], ['prerelease', 'a'], ['preminor']]) {
                    assert.strictEqual(raised(semver, ...words), raised(npm, ...words), inspect([major, minor, words]));
                }
            }
        }
    });
    test('texts of small numbers and of large ones', () => {
        for (let major = 0; major < 70; major++) {
            for (let minor = 0; minor < 140; minor++) {
                const [version, text] = [new semver.SemVer('0.0.0'), `${major}.${minor}.5`];
                assert.strictEqual(Object.assign(version, { major, minor, patch: 5 }).format(), text);
                assert.strictEqual(new semver.SemVer(text).inc('patch').raw, `${major}.${minor}.6`);
            }
        }
    });
});

describe('parseRange is as with npm', () => {
    const texts = ['^1', ' ^1', '^1 ', '1  <2', '\t1', '', ' ', '1 || 2', '1||2', '||', '^1 ||', '1 2 || 3', '* || 1', 'foo ||',
        'a ', ' a', 'a  b ', '\0', '1 \0', '\x01||\x02\0', '|| > 1', '1|| ~ 2 3', '||= x', '>|| 1', '||>= v1 || 2'];
    for (const text of texts) {
        for (const options of [undefined, true, { includePrerelease: true }]) {
            isAsNpm(`${inspect(text)} with ${inspect(options)}`, () => text, (s) => {
                try {
                    return new s.Range('1', options).parseRange(text).join();
                } catch ({ message }) {
                    return message;
                }
            });
        }
    }
});

test('subset without options', () => {
    for (const [one, other] of [['1', '1 || 2'], ['1.2.3', '^1'], ['*', '*'], ['*', '1'], ['1', '*'], ['1.2.3 1.2.4', '5']]) {
        for (const options of [null, undefined, 0, false]) {
            assert.strictEqual(outcome(() => semver.subset(one, other, options)),
                outcome(() => npm.subset(one, other, options)), `${one}, ${other}, ${options}`);
        }
    }
});

describe('long builds and prereleases', () => {
    const build = (letter) => `1.0.0+${letter.repeat(250)}`;
    isAsNpm('compareBuild of 250 bytes', () => [build('a'), build('b')], (s, list) => s.compareBuild(...list));
    isAsNpm('sort by builds of 250 bytes', () => [build('b'), build('a'), '1.0.0'], (s, list) => s.sort(list));
    const long = (letter) => semver.leastBeyond(`>1.0.0-${letter.repeat(249)}`, '<0.0.0-0');
    test('compare, sort and maxSatisfying of versions that no text writes', () => {
        const [one, other] = [long('a'), long('b')];
        assert.strictEqual(one.version.length, 257);
        assert.deepStrictEqual([one.compare(other), other.compare(one), one.compare(long('a'))], [-1, 1, 0]);
        assert.deepStrictEqual(semver.sort([other, '1.0.0', one]), [one, other, '1.0.0']);
        assert.deepStrictEqual(semver.rsort([one, other, '1.0.0+z']), ['1.0.0+z', other, one]);
        assert.strictEqual(semver.compareBuild(one, other), -1);
        assert.strictEqual(semver.maxSatisfying([one, other, '0.1.0'], '>=1.0.0-a'), other);
        assert.strictEqual(semver.minSatisfying([other, one, '1.1.0'], '>=1.0.0-a'), one);
    });
    test('the least version has no build', () => {
        for (const range of ['>=1.0.0+b', '>1.0.0-a+b', '>=1.0.0-a+b']) {
            assert.deepStrictEqual(semver.minVersion(range).build, [], range);
            assert.ok(!semver.minVersion(range).raw.includes('+'), range);
        }
    });
    test('compareMain of numbers above the greatest that a text writes', () => {
        const beyond = semver.leastBeyond('>1.2.9007199254740991', '<1');
        assert.strictEqual(beyond.compareMain('1.2.9007199254740991'), 1);
        assert.strictEqual(new semver.SemVer('1.2.3-rc').compareMain(beyond), -1);
    });
});
