// SPDX-License-Identifier: Apache-2.0
// Values of npm's own package, and of another load of this one, as after a reset of a test's module registry: each function returns
// what it returns for a value of its own with the same text and options. What only looks like such a value is refused, as by npm.
'use strict';

const assert = require('node:assert');
const path = require('node:path');
const { describe, test } = require('node:test');
const { inspect } = require('node:util');
const semver = require('..');
const { createNpm } = require('./npm.js');

const npm = createNpm();
const root = path.join(__dirname, '..');

// The package, whose JavaScript is loaded anew.
function loadAgain() {
    const kept = { ...require.cache };
    Object.keys(require.cache).filter((file) => file.startsWith(root))
        .forEach((file) => { delete require.cache[file]; });
    const again = require('..');
    Object.assign(require.cache, kept);
    return again;
}

const others = { 'of npm': npm, 'of another load': loadAgain() };

// What a user sees of a result, or the kind of the error.
function shown(value) {
    if (Array.isArray(value)) {
        return value.map(shown);
    }
    if (typeof value === 'object' && value !== null) {
        const { version, build, range, value: text, loose, includePrerelease } = value;
        return { version, build, range, text, loose, includePrerelease };
    }
    return value;
}

function outcome(call) {
    try {
        return shown(call());
    } catch (error) {
        return error.constructor.name;
    }
}

const OPTIONS = [undefined, {}, { loose: true }, { includePrerelease: true }, { loose: true, includePrerelease: true }];
const TEXTS = ['1.2.3', '1.2.3+b', 'v1.2.3-rc.4+b.1', '0.0.0', '2.0.0-0+a'];
const RANGES = ['^1.2.3-rc.1 || 4', '>=0.0.0', '', '1.2.3+b', '>1.2.3-a <2'];
const COMPARATORS = ['>=1.2.3-rc.1', '1.2.3', '', '<0.0.0', '>1.2.3+b'];

// Each function that takes a version, of a version and of options.
const ofVersion = {
    valid: (s, x, o) => s.valid(x, o),
    parse: (s, x, o) => s.parse(x, o),
    SemVer: (s, x, o) => new s.SemVer(x, o),
    major: (s, x, o) => [s.major(x, o), s.minor(x, o), s.patch(x, o)],
    prerelease: (s, x, o) => s.prerelease(x, o),
    coerce: (s, x, o) => s.coerce(x, o),
    'coerce, from the right': (s, x, o) => s.coerce(x, { ...o, rtl: true }),
    compare: (s, x, o) => [s.compare(x, '1.2.3', o), s.rcompare('1.2.3-rc', x, o), s.compareLoose(x, '1.2.4')],
    compareBuild: (s, x, o) => ['1.2.3+a', '1.2.3+c', '1.2.3', '1.2.3-rc.4+b'].map((other) =>
        [s.compareBuild(x, other, o), s.compareBuild(other, x, o)]),
    'compareBuild of itself': (s, x, o) => s.compareBuild(x, x, o),
    cmp: (s, x, o) => ['<', '>=', '===', '!=='].map((operator) => s.cmp(x, operator, '1.2.3', o)),
    eq: (s, x, o) => [s.eq, s.neq, s.gt, s.gte, s.lt, s.lte].map((call) => call(x, '1.2.3', o)),
    diff: (s, x) => [s.diff(x, '1.3.0'), s.diff('0.1.0-a', x)],
    inc: (s, x, o) => ['patch', 'prerelease', 'premajor'].map((release) => s.inc(x, release, o, 'rc')),
    sort: (s, x, o) => s.sort(['1.2.3+c', x, '1.2.3+a', '1.0.0'], o).map(String),
    'sort, places': (s, x, o) => s.sort(['1.2.3+c', x, '1.2.3+a', '1.2.3-rc.4+b'], o).indexOf(x),
    rsort: (s, x, o) => s.rsort(['1.2.3+a', '1.2.3+c', x], o).indexOf(x),
    satisfies: (s, x, o) => RANGES.map((range) => s.satisfies(x, range, o)),
    'Range.test': (s, x, o) => RANGES.map((range) => new s.Range(range, o).test(x)),
    'Comparator.test': (s, x, o) => COMPARATORS.map((text) => new s.Comparator(text, o).test(x)),
    maxSatisfying: (s, x, o) => [s.maxSatisfying([x, '0.1.0', '9.0.0'], '<3', o), s.minSatisfying([x, '9.0.0'], '*', o)],
    gtr: (s, x, o) => [s.gtr(x, '<1', o), s.ltr(x, '>2', o), s.outside(x, '^9', '<', o)],
    simplifyRange: (s, x, o) => s.simplifyRange([x, '0.1.0'], '1.2.3 || 0.1.0 || 7', o),
    'SemVer.compare': (s, x, o) => TEXTS.map((text) => [new s.SemVer(text, o)].map((one) =>
        [one.compare(x), one.compareMain(x), one.comparePre(x), one.compareBuild(x)])),
    key: (s, x, o) => s.key(x, o).toString('hex'),
    fromSets: (s, x) => String(s.Range.fromSets([{ lower: { kind: 'before', version: x }, upper: { kind: 'end' } }])),
};

const ofRange = {
    Range: (s, x, o) => new s.Range(x, o),
    validRange: (s, x, o) => s.validRange(x, o),
    satisfies: (s, x, o) => [...TEXTS, '1.2.3-rc.2', '4.0.0'].map((version) => s.satisfies(version, x, o)),
    maxSatisfying: (s, x, o) => [s.maxSatisfying(TEXTS, x, o), s.minSatisfying(TEXTS, x, o)],
    minVersion: (s, x, o) => s.minVersion(x, o),
    toComparators: (s, x, o) => s.toComparators(x, o),
    intersects: (s, x, o) => RANGES.map((other) => [s.intersects(x, other, o), s.intersects(other, x, o)]),
    'intersects, itself': (s, x, o) => s.intersects(x, x, o),
    subset: (s, x, o) => RANGES.map((other) => [s.subset(x, other, o), s.subset(other, x, o)]),
    gtr: (s, x, o) => TEXTS.map((version) => [s.gtr(version, x, o), s.ltr(version, x, o), s.outside(version, x, '<', o)]),
    simplifyRange: (s, x, o) => String(s.simplifyRange(['1.2.3', '1.2.4'], x, o)),
    intersect: (s, x, o) => [s.intersect(x, '<2', o), s.difference(x, '1.2.3', o)].map(String),
    leastBeyond: (s, x, o) => [s.leastBeyond(x, '<1', o), s.leastCommon('>=1', x, o)],
};

const ofRangeAlone = {
    'Range.intersects': (s, x, o) => RANGES.map((range) => new s.Range(range, o).intersects(x, o)),
};

const ofComparatorAlone = {
    Comparator: (s, x, o) => new s.Comparator(x, o),
    'Comparator.intersects': (s, x, o) => COMPARATORS.map((text) => new s.Comparator(text, o).intersects(x, o)),
};

const kinds = {
    SemVer: [TEXTS, ofVersion],
    Range: [RANGES, { ...ofRange, ...ofRangeAlone }],
    Comparator: [COMPARATORS, { ...ofRange, ...ofComparatorAlone }],
};

for (const [origin, other] of Object.entries(others)) {
    for (const [kind, [texts, calls]] of Object.entries(kinds)) {
        describe(`a ${kind} ${origin} is as one of this package`, () => {
            for (const [name, call] of Object.entries(calls)) {
                test(name, () => {
                    for (const text of texts) {
                        for (const made of OPTIONS) {
                            for (const options of OPTIONS) {
                                const [theirs, ours] = [other, semver].map((s) => new s[kind](text, made));
                                assert.deepStrictEqual(outcome(() => call(semver, theirs, options)),
                                    outcome(() => call(semver, ours, options)), inspect([text, made, options]));
                            }
                        }
                    }
                });
            }
        });
    }
}

test("what npm's Comparator.ANY is", () => {
    assert.strictEqual(new semver.Comparator('>1.0.0').test(npm.Comparator.ANY), true);
});

// Classes of the same names, with the fields that the text would be read from, and no more.
const lookalikes = {
    SemVer: () => new (class SemVer { version = '1.2.3'; raw = '1.2.3'; })(),
    Range: () => new (class Range { raw = '^1'; range = '>=1.0.0 <2.0.0-0'; })(),
    Comparator: () => new (class Comparator { value = '>=1.0.0'; operator = '>='; })(),
};

for (const [kind, make] of Object.entries(lookalikes)) {
    test(`a class that is merely named ${kind} is refused, as by npm`, () => {
        for (const [name, call] of Object.entries({ ...ofVersion, ...ofRange, ...ofRangeAlone, ...ofComparatorAlone })) {
            if (['key', 'fromSets', 'intersect', 'leastBeyond', 'Range.test'].includes(name)) {
                continue;
            }
            for (const options of OPTIONS) {
                assert.deepStrictEqual(outcome(() => call(semver, make(), options)), outcome(() => call(npm, make(), options)),
                    `${name} ${inspect(options)}`);
            }
        }
    });
}
