// SPDX-License-Identifier: Apache-2.0
// `check` and `audit`: lock files, manifests beside them and advisories, as objects and as texts; and options of every kind.
'use strict';

const assert = require('node:assert');
const { test } = require('node:test');
const audit = require('../audit.js');
const check = require('../check.js');

const lock = {
    lockfileVersion: 3,
    packages: {
        '': { dependencies: { a: '^1', b: '^2' } },
        'node_modules/a': { version: '1.2.0' },
        'node_modules/b': { version: '1.0.0', dev: true, engines: { node: '>=20' } },
    },
};
const old = { lockfileVersion: 1, dependencies: { a: { version: '1.2.0', requires: { b: '1' } } } };
const advisories = { a: [{ id: 7, severity: 'high', title: 't', url: 'u', vulnerable_versions: '<1.3' }] };
const exception = { id: '7', package: 'a', reason: 'it is not called' };

// The lock file, the options, and the kinds and names of the problems.
const rows = [
    [lock, {}, ['invalid b']],
    [JSON.stringify(lock), undefined, ['invalid b']],
    [lock, { ignore: ['invalid'], omit: null }, []],
    [lock, { ignore: ['invalid'], nodeVersion: '18.0.0' }, ['engine node']],
    [lock, { manifest: { dependencies: { a: '^2' } } }, ['group a', 'group b', 'invalid a']],
    [lock, { manifest: '{}', workspaces: { w: { dependencies: { a: '1' } } }, ignore: ['group', 'missing'] }, []],
    [old, {}, ['missing b']],
];

test('problems', () => {
    for (const [file, options, expected] of rows) {
        const { clean, problems } = check(file, options);
        assert.deepStrictEqual(problems.map(({ problem, name }) => `${problem} ${name}`), expected);
        assert.strictEqual(clean, expected.length === 0);
    }
    assert.deepStrictEqual(check(lock, { ignore: ['invalid'] }), { clean: true, dependencies: 2, not_checked: 0, packages: 3, problems: [] });
});

// The arguments, the code of the error, and the path to what is wrong.
const refused = [
    [['{'], 'EINVALIDLOCK', ['lock']],
    [['\ud800'], 'EINVALIDLOCK', ['lock']],
    [[{}], 'EINVALIDLOCK', ['lock']],
    [[undefined], 'EINVALIDLOCK', ['lock']],
    [[{ lockfileVersion: 3, packages: { a: 7 } }], 'EINVALIDLOCK', ['lock', 'packages', 'a']],
    [[lock, { manifest: { dependencies: { a: 7 } } }], 'EINVALIDMANIFEST', ['manifest', 'dependencies', 'a']],
    [[lock, { manifest: {}, workspaces: { w: 7 } }], 'EINVALIDMANIFEST', ['workspaces', 'w']],
    [[lock, { nodeVersion: '20' }], 'EINVALIDOPTION', ['nodeVersion']],
    [[lock, { ignore: ['all'] }], 'EINVALIDOPTION', ['ignore', 0]],
    [[lock, { omit: 'dev' }], 'EINVALIDOPTION', ['omit']],
    [[lock, { strict: 1 }], 'EINVALIDOPTION', ['strict']],
];

test('what cannot be read', () => {
    for (const [given, code, member] of refused) {
        assert.throws(() => check(...given), (error) => {
            assert.deepStrictEqual([error.code, error.member], [code, member]);
            return true;
        });
    }
    assert.throws(() => check('{"lockfileVersion":3,\n "packages":7}'), {
        line: 2, column: 2, message: '"lock", "packages": `packages` is no object', fault: 'invalid_lock',
    });
});

test('hits', () => {
    for (const given of [advisories, JSON.stringify(advisories)]) {
        const { clean, hits } = audit(lock, given);
        assert.deepStrictEqual([clean, hits.map(({ name, version, least }) => `${name} ${version} ${least}`)], [false, ['a 1.2.0 1.3.0']]);
    }
    assert.deepStrictEqual(audit(lock, advisories, { severity: 'critical' }).hits, []);
    assert.deepStrictEqual(audit(lock, {}), { clean: true, advisories: 0, excepted: [], hits: [] });
});

test('exceptions', () => {
    assert.deepStrictEqual(audit(lock, advisories, { exceptions: [exception] }).excepted,
        [{ folder: 'node_modules/a', id: '7', name: 'a', reason: 'it is not called' }]);
    const exceptions = [{ ...exception, until: '2026-11-30' }];
    assert.ok(audit(lock, advisories, { exceptions, today: '2026-11-30' }).clean);
    assert.ok(!audit(lock, advisories, { exceptions, today: '2026-12-01' }).clean);
    assert.throws(() => audit(lock, advisories, { exceptions: [{ id: '7' }] }), { code: 'EINVALIDOPTION', member: ['exceptions', 0, 'package'] });
    assert.throws(() => audit(lock, { a: [{ id: 7, severity: 7 }] }), { code: 'EINVALIDADVISORIES', member: ['advisories', 'a', 0, 'severity'] });
    assert.throws(() => audit(lock, advisories, { today: 'yesterday' }), { code: 'EINVALIDOPTION', member: ['today'] });
});
