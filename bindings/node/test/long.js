// SPDX-License-Identifier: Apache-2.0
// Long texts, and each function that reads a text.
'use strict';

const shapes = {
    'words': (n) => '>=1.2.3 '.repeat(n / 8),
    'other words': (n) => Array.from({ length: n / 10 }, (_, i) => `>=1.2.${i}`).join(' '),
    'alternatives': (n) => '^1.2.3||'.repeat(n / 8),
    'other alternatives': (n) => Array.from({ length: n / 10 }, (_, i) => `^1.2.${i}`).join('||'),
    'digits': (n) => `1.2.${'3'.repeat(n)}`,
    'letters': (n) => `1.2.3-${'a'.repeat(n)}`,
    'identifiers': (n) => `1.2.3-${'a.'.repeat(n / 2)}a`,
    'marks': (n) => `${'v'.repeat(n)}1`,
    'marks apart': (n) => `> ${'= '.repeat(n / 2)}x.y`,
    'tildes apart': (n) => `${'~ '.repeat(n / 2)}1`,
    'hyphens': (n) => '1 - 2 '.repeat(n / 6),
    'bars': (n) => '|'.repeat(n),
    'blanks': (n) => `1${' '.repeat(n)}2`,
    'lines': (n) => `${'\n'.repeat(n)}1`,
    'stars': (n) => '*'.repeat(n),
    'other characters': (n) => '\u00e9'.repeat(n),
};

const calls = {
    valid: (semver, text, options) => semver.valid(text, options),
    clean: (semver, text, options) => semver.clean(text, options),
    coerce: (semver, text, options) => semver.coerce(text, options),
    compare: (semver, text, options) => semver.compare(text, '1.0.0', options),
    inc: (semver, text, options) => [semver.inc(text, 'patch', options), semver.inc('1.2.3', 'prerelease', options, text)],
    satisfies: (semver, text, options) => [semver.satisfies(text, '^1', options), semver.satisfies('1.2.3', text, options)],
    maxSatisfying: (semver, text, options) => [semver.maxSatisfying([text, '1.0.0'], '^1', options),
        semver.maxSatisfying(['1.0.0'], text, options)],
    sort: (semver, text, options) => semver.sort([text, '1.0.0'], options),
    Comparator: (semver, text, options) => new semver.Comparator(text, options),
    validRange: (semver, text, options) => semver.validRange(text, options),
    parseRange: (semver, text, options) => new semver.Range('1', options).parseRange(text),
    minVersion: (semver, text, options) => semver.minVersion(text, options),
    gtr: (semver, text, options) => semver.gtr('1.2.3', text, options),
    subset: (semver, text, options) => semver.subset(text, '^1', options),
    sets: (semver, text, options) => new semver.Range(text, options).sets,
    intersect: (semver, text, options) => [semver.intersect(text, '^1', options), semver.difference(text, '^1', options)],
    leastBeyond: (semver, text, options) => [semver.leastBeyond(text, '^1', options), semver.leastCommon(text, '^1', options)],
};

module.exports = { shapes, calls };
