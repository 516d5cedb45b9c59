// SPDX-License-Identifier: Apache-2.0
// The example, on npm's own node_modules and on a folder made for it.
'use strict';

const assert = require('node:assert');
const { test } = require('node:test');
const { spawnSync } = require('node:child_process');
const fs = require('node:fs');
const os = require('node:os');
const path = require('node:path');
const { judge, shown } = require('../examples/installed.js');
const { createNpm, npmFolder } = require('./npm.js');

const example = path.join(__dirname, '../examples/installed.js');

test("npm's own node_modules: each dependency is satisfied", () => {
    const { packages, dependencies, wrong, notRanges } = judge(path.join(npmFolder(), 'node_modules'));
    assert.ok(packages > 100 && dependencies > 200, `${packages} packages, ${dependencies} dependencies`);
    assert.deepStrictEqual([wrong, notRanges], [[], []]);
    assert.strictEqual(shown('a\x1b[2J\u202e\tb\n é'), 'a\\u001b[2J\\u202e\\u0009b\\u000a é');
});

// The same packages with other versions: exactly those are reported that npm's `satisfies` refuses.
test("npm's own node_modules with other versions: what npm's satisfies refuses, and nothing else", () => {
    const npm = createNpm();
    const read = fs.readFileSync;
    try {
        fs.readFileSync = (file, ...rest) => {
            const manifest = JSON.parse(read(file, ...rest));
            const [major, minor] = manifest.version.split('.');
            return JSON.stringify({ ...manifest, version: `${major}.${Math.max(0, minor - 1)}.0` });
        };
        const { wrong, dependencies } = judge(path.join(npmFolder(), 'node_modules'));
        assert.ok(wrong.length > 20 && wrong.length < dependencies, `${wrong.length} of ${dependencies}`);
        wrong.forEach(({ version, range }) => assert.ok(!npm.satisfies(version, range), `${version} ${range}`));
    } finally {
        fs.readFileSync = read;
    }
});

const tree = {
    'a': { version: '1.0.0', dependencies: { b: '^1.2', c: '1', d: '*' } },
    'a/node_modules/c': { version: '1.5.0' },
    'b': { version: '1.1.9', dependencies: { a: '1.0.0 || 2', gone: '^1' } },
    'c': { version: '2.0.0-rc.1', dependencies: { '@s/e': '>=2.0.0-rc.2 <2.1' } },
    'd': { version: '0.0.1', optionalDependencies: { absent: '1' }, peerDependencies: { c: '^2.0.0-rc.0' } },
    '@s/e': { version: '2.0.0-rc.1', dependencies: { f: 'npm:b@~1.1.0', a: 'latest' } },
    'f': { version: '1.1.9' },
};

test('a folder with wrong and missing packages', () => {
    const room = fs.mkdtempSync(path.join(os.tmpdir(), 'installed-'));
    try {
        for (const [name, manifest] of Object.entries(tree)) {
            const folder = path.join(room, 'node_modules', name);
            fs.mkdirSync(folder, { recursive: true });
            fs.writeFileSync(path.join(folder, 'package.json'), JSON.stringify({ name, ...manifest }));
        }
        const { status, stdout, stderr } = spawnSync(process.execPath, [example, path.join(room, 'node_modules')],
            { encoding: 'utf8' });
        assert.deepStrictEqual(stdout.trim().split('\n').sort(), [
            'a@1.0.0\tb\t^1.2\t1.1.9',
            'b@1.1.9\tgone\t^1\tmissing',
            'c@2.0.0-rc.1\t@s/e\t>=2.0.0-rc.2 <2.1\t2.0.0-rc.1',
        ]);
        assert.strictEqual(stderr, '7 packages, 10 dependencies, 3 not satisfied, 1 without a range\n');
        assert.strictEqual(status, 1);
    } finally {
        fs.rmSync(room, { recursive: true });
    }
});
