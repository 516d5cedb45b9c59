// SPDX-License-Identifier: Apache-2.0
// Objects that a user has changed, and code of a user that runs amid a call.
'use strict';

const assert = require('node:assert');
const { test } = require('node:test');
const semver = require('..');
const { createNpm } = require('./npm.js');

const npm = createNpm();

for (const [name, it] of Object.entries({ npm, here: semver })) {
    test(`${name}: a Range whose text is replaced by a number is refused, and nothing is kept of it`, () => {
        const range = new it.Range('^1');
        range.raw = 18;
        assert.throws(() => new it.Range(range, true), { name: 'TypeError', message: 'range.trim is not a function' });
        assert.strictEqual(it.satisfies('18.1.2', '18', true), true);
    });
    test(`${name}: a getter of a range that asks too`, () => {
        const range = Object.create(new it.Range('^1'), {
            raw: { get() { it.maxSatisfying(['7.0.0', '8.0.0', '9.0.0'], '*'); return '^1'; } },
        });
        assert.strictEqual(it.maxSatisfying(['9.0.0', '1.5.0'], range), '1.5.0');
    });
    test(`${name}: a proxy of a range that asks too`, () => {
        const range = new Proxy(new it.Range('^2'), {
            get(target, key) {
                it.minSatisfying(['7.0.0', '8.0.0', '9.0.0'], '*');
                return target[key];
            },
        });
        assert.strictEqual(it.maxSatisfying(['9.0.0', '2.5.0'], range), '2.5.0');
    });
    test(`${name}: what is put in the place of a text is kept for no text`, () => {
        for (const [put, text, version] of [[19, '19', '19.1.2'], [['^20.1.0'], '^20.1.0', '20.1.2'], [{ trim: () => 21 }, '21', '21.0.0']]) {
            const range = Object.assign(new it.Range('^1'), { raw: put });
            const comparator = Object.assign(new it.Comparator('>=1.2.3'), { value: put });
            for (const options of [undefined, true, { includePrerelease: true }]) {
                for (const one of [range, comparator]) {
                    try {
                        it.satisfies(version, new it.Range(one, options), options);
                    } catch (error) {
                        assert.ok(error instanceof TypeError, String(error));
                    }
                }
                assert.strictEqual(it.satisfies(version, text, options), true);
            }
        }
    });
}

test('a number that is put into a version that no text writes', () => {
    const version = semver.leastBeyond('>1.2.9007199254740991', '<1');
    assert.strictEqual(semver.satisfies(version, '^1'), true);
    version.major = 5;
    assert.deepStrictEqual([semver.satisfies(version, '^1'), semver.satisfies(version, '^5')], [false, false]);
    version.major = 1;
    assert.strictEqual(semver.satisfies(version, '^1'), true);
});
