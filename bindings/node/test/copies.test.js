// SPDX-License-Identifier: Apache-2.0
// Copies that were made without a constructor, objects that inherit from a SemVer, a Range or a Comparator, and proxies of
// them: each function and each method is as with npm.
'use strict';

const assert = require('node:assert');
const { test } = require('node:test');
const semver = require('..');
const { createNpm } = require('./npm.js');

const npm = createNpm();

const isObject = (value) => typeof value === 'object' && value !== null;

// As `cloneDeep` of lodash copies: the own fields, on an object of the same prototype.
function deepCopy(value) {
    if (!isObject(value)) {
        return value;
    }
    const copy = Array.isArray(value) ? [] : Object.create(Object.getPrototypeOf(value));
    Object.keys(value).forEach((key) => { copy[key] = deepCopy(value[key]); });
    return copy;
}

// As `reactive` of Vue: an object that is read through it is a proxy too.
const reactive = (value) => (!isObject(value) ? value
    : new Proxy(value, { get: (target, key, self) => reactive(Reflect.get(target, key, self)) }));

const copies = {
    'a deep copy': deepCopy,
    'a deep copy of a deep copy': (value) => deepCopy(deepCopy(value)),
    'an object that inherits': (value) => Object.create(value),
    'a proxy': (value) => new Proxy(value, {}),
    'a reactive proxy': reactive,
    'a proxy of a deep copy': (value) => new Proxy(deepCopy(value), {}),
};

const LIST = ['1.2.3-rc.1', '1.2.3', '1.2.4', '0.1.0', '1.2.3-rc.4+a', '2.0.0', '3.1.0', '1.9.0-a'];
const BUMPS = ['major', 'premajor', 'minor', 'preminor', 'patch', 'prepatch', 'prerelease'];
const names = (list, call) => list.map((name) => call(name));

const ofVersion = {
    fields: (s, x) => [x.version, x.raw, x.major, x.minor, x.patch, [...x.prerelease], [...x.build], String(x), x.format()],
    ...Object.fromEntries(['valid', 'parse', 'major', 'minor', 'patch', 'prerelease', 'coerce', 'SemVer'].map((name) =>
        [name, (s, x) => (name === 'SemVer' ? new s.SemVer(x) : s[name](x))])),
    'SemVer with options': (s, x) => new s.SemVer(x, true),
    'of a list': (s, x) => names(['compare', 'rcompare', 'compareBuild', 'compareLoose', 'diff', 'gt', 'gte', 'eq', 'neq', 'lt',
        'lte'], (name) => LIST.map((other) => [s[name](x, other), s[name](other, x)])),
    methods: (s, x) => names(['compare', 'compareMain', 'comparePre', 'compareBuild'], (name) =>
        LIST.map((other) => [x[name](other), new s.SemVer(other)[name](x)])),
    cmp: (s, x) => names(['<', '===', '!==', '>='], (operator) => s.cmp(x, operator, '1.2.3')),
    inc: (s, x) => names(BUMPS, (name) => s.inc(x, name, 'rc')),
    'SemVer.inc': (s, x) => names(BUMPS, (name) => x.inc(name, 'rc').version),
    sort: (s, x) => s.sort([...LIST, x]).map(String),
    rsort: (s, x) => s.rsort([...LIST.map((text) => new s.SemVer(text)), x]).map(String),
    satisfies: (s, x) => names(['^1.2.3-rc.1', '>=1', '*', '1.2.3-rc.4 || 7'], (range) => [s.satisfies(x, range),
        s.satisfies(x, range, { includePrerelease: true }), new s.Range(range).test(x)]),
    maxSatisfying: (s, x) => [String(s.maxSatisfying([...LIST, x], '<=1.2.3')), String(s.minSatisfying([x], '>=1.2.3-a'))],
    gtr: (s, x) => names(['gtr', 'ltr'], (name) => [s[name](x, '^1.2.4'), s[name](x, '<1')]),
    'Comparator.test': (s, x) => new s.Comparator('>=1.2.3-rc.1').test(x),
    simplifyRange: (s, x) => s.simplifyRange([...LIST, x], '1.2.3 || 1.2.3-rc.4 || 5'),
};

const ofRange = {
    fields: (s, x) => [x.raw, x.range, x.format(), String(x), x.loose, x.includePrerelease,
        x.set.map((one) => one.map(String))],
    test: (s, x) => LIST.map((version) => [x.test(version), x.test(new s.SemVer(version))]),
    satisfies: (s, x) => LIST.map((version) => [s.satisfies(version, x),
        s.satisfies(version, x, { includePrerelease: true })]),
    maxSatisfying: (s, x) => [s.maxSatisfying(LIST, x), s.minSatisfying(LIST, x)],
    validRange: (s, x) => s.validRange(x),
    Range: (s, x) => [new s.Range(x).range, new s.Range(x, { includePrerelease: true }).range],
    parseRange: (s, x) => x.parseRange('^1 <3').map(String),
    toComparators: (s, x) => s.toComparators(x),
    minVersion: (s, x) => String(s.minVersion(x)),
    intersects: (s, x) => [s.intersects(x, '^1'), s.intersects('5', x), x.intersects(new s.Range('4')),
        new s.Range('3').intersects(x)],
    subset: (s, x) => [s.subset(x, '>=1.2.3-rc.4'), s.subset('3', x), s.subset(x, x)],
    gtr: (s, x) => names(['gtr', 'ltr'], (name) => LIST.map((version) => s[name](version, x))),
    outside: (s, x) => s.outside('9.0.0', x, '>'),
    simplifyRange: (s, x) => String(s.simplifyRange([...LIST], x)),
    comparators: (s, x) => x.set.map((one) => one.map((comparator) => comparator.test('1.2.4'))),
};

const ofComparator = {
    fields: (s, x) => [x.value, x.operator, String(x.semver), String(x), x.loose],
    test: (s, x) => LIST.map((version) => x.test(version)),
    intersects: (s, x) => [x.intersects(new s.Comparator('<1')), new s.Comparator('>5').intersects(x)],
    parse: (s, x) => [x.parse('<3.0.0'), x.operator, String(x.semver)],
    Comparator: (s, x) => [new s.Comparator(x).value, new s.Comparator(x, true).value],
    Range: (s, x) => new s.Range(x).range,
};

const outcome = (call) => {
    try {
        const result = call();
        return JSON.parse(JSON.stringify(result?.version ?? result ?? null));
    } catch (error) {
        return error.constructor.name;
    }
};

const subjects = {
    'a SemVer': [(s) => new s.SemVer('v1.2.3-rc.4+b'), ofVersion],
    'a SemVer of three numbers': [(s) => new s.SemVer('1.2.3'), ofVersion],
    'a Range': [(s) => new s.Range(' ^1.2.3-rc.4  || >=3 <4'), ofRange],
    'a Range of a long text': [(s) => new s.Range(`${'^1.2.3-rc.4 || '.repeat(20)}>=3`), ofRange],
    'a Range with options': [(s) => new s.Range('1.x || >=3.0.0beta', { loose: true, includePrerelease: true }), ofRange],
    'a Comparator': [(s) => new s.Comparator('>=1.2.3-rc.4'), ofComparator],
    'any Comparator': [(s) => new s.Comparator(''), ofComparator],
};

for (const [subject, [make, calls]] of Object.entries(subjects)) {
    for (const [copy, copied] of Object.entries(copies)) {
        test(`${copy} of ${subject}`, () => {
            for (const [name, call] of Object.entries(calls)) {
                assert.deepStrictEqual(outcome(() => call(semver, copied(make(semver)))),
                    outcome(() => call(npm, copied(make(npm)))), name);
            }
        });
    }
}

test('copies of a range that was made of two others', () => {
    for (const copied of Object.values(copies)) {
        const range = copied(semver.intersect('^1.2.3-rc.1', '>=1'));
        assert.ok(range.test('1.2.3-rc.4') && range.test('1.9.0') && !range.test('2.0.0'));
        assert.strictEqual(String(semver.intersect(range, '>=1.5')), '>=1.5.0 <2.0.0-0');
        assert.strictEqual(range.sets.length, 1);
    }
});

test('fields of a copy may be set', () => {
    for (const copied of Object.values(copies)) {
        const range = copied(new semver.Range('^1'));
        range.set = [];
        range.range = 'x';
        assert.deepStrictEqual([range.set, range.range, range.test('1.2.3')], [[], 'x', true]);
    }
});
