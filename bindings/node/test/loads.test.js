// SPDX-License-Identifier: Apache-2.0
// The package is loaded again and again, as by a test runner with a module registry for each file; by modules; and with options of Node
// that forbid what it does not need.
'use strict';

const assert = require('node:assert');
const { spawnSync } = require('node:child_process');
const fs = require('node:fs');
const path = require('node:path');
const { test } = require('node:test');
const { setImmediate: turn } = require('node:timers/promises');

const root = path.join(__dirname, '..');
const { name } = require('../package.json');
const inside = (file) => file.startsWith(root + path.sep) && !file.startsWith(__dirname + path.sep);

// The package, loaded anew.
function load() {
    Object.keys(require.cache).filter(inside).forEach((file) => { delete require.cache[file]; });
    module.children.length = 0;
    return require('..');
}

const range = (i) => `^1.${i}.0 || >=3.0.0-rc.${i} <4`;

test('loads keep their ranges apart', () => {
    const loads = Array.from({ length: 5 }, load);
    assert.strictEqual(new Set(loads.map(({ satisfies }) => satisfies)).size, 5);
    for (let i = 0; i < 2000; i++) {
        loads.forEach(({ satisfies, validRange }, j) => {
            assert.ok(satisfies(`1.${i + j}.0`, range(i + j)) && !satisfies(`1.${i}.0`, range(i + j + 1)), `${i} ${j}`);
            assert.strictEqual(validRange(`~1.${i}.${j}`), `>=1.${i}.${j} <1.${i + 1}.0-0`);
        });
    }
});

const LOADS = 300;
const MOST = 60 << 20;

// How many bytes the process has more after so many loads than after a third of them.
async function growth() {
    const loop = async (times) => {
        for (let i = 0; i < times; i++) {
            const semver = load();
            semver.satisfies('1.2.3', range(i));
            semver.maxSatisfying(['1.2.3', '1.4.0'], new semver.Range(range(i)));
            semver.sort([semver.inc('1.2.3', 'patch'), '1.0.0']);
            if (i % 20 === 0) {
                globalThis.gc();
                await turn();
            }
        }
        globalThis.gc();
        await turn();
        return process.memoryUsage().rss;
    };
    const before = await loop(LOADS / 3);
    return await loop(2 * LOADS / 3) - before;
}

test(`${LOADS} loads`, async () => {
    const grown = await growth();
    assert.ok(grown < MOST, `${grown} bytes more`);
});

const USES = `
    const semver = require('.');
    const pick = require('./pick.js');
    const resolve = require('./resolve.js');
    console.log(semver.satisfies('1.9.0', '^1.2'), pick({ versions: { '1.9.0': { version: '1.9.0' } } }, '^1').version,
        resolve({}, {}).outcome);
`;
const said = (...words) => {
    const { stdout, stderr } = spawnSync(process.execPath, words, { cwd: root, encoding: 'utf8' });
    return stdout || stderr;
};

for (const option of ['--no-addons', '--disallow-code-generation-from-strings', '--frozen-intrinsics', '--disable-proto=throw']) {
    test(`Node with ${option}`, () => assert.match(said(option, '-e', USES), /^true 1\.9\.0 selected\n/));
}

test('a worker thread that has nothing of its parent', () => {
    assert.strictEqual(said('-e', `new (require('node:worker_threads').Worker)(${JSON.stringify(USES)}, { eval: true, env: {} });`),
        'true 1.9.0 selected\n');
});

test('nothing is run when the package is installed, and it is for each machine', () => {
    const { scripts, os, cpu, libc, dependencies, imports } = require('../package.json');
    assert.deepStrictEqual([os, cpu, libc, dependencies, scripts.install, scripts.preinstall, scripts.postinstall], Array(7).fill(undefined));
    for (const conditions of Object.values(imports)) {
        for (const file of Object.values(conditions)) {
            assert.ok(fs.existsSync(path.join(root, file)), file);
        }
    }
});

test('each name can be imported by a module', () => {
    const names = Object.keys(require('..'));
    const { stdout, stderr } = spawnSync(process.execPath, ['--input-type=module', '-e', `
        import { ${names.join(', ')} } from '${name}';
        import semver, * as all from '${name}';
        import pick from '${name}/pick';
        import resolve from '${name}/resolve';
        import minVersion_ from '${name}/ranges/min-version.js';
        import { ${names.map((name) => `${name} as ${name}_of_preload`).join(', ')} } from '${name}/preload';
        import * as classes from '${name}/classes';
        const names = { ${names.join(', ')} };
        console.log(Object.keys(names).every((name) => names[name] === semver[name] && all[name] === semver[name]), satisfies('1.9.0', '^1.2'),
            typeof pick, typeof resolve, minVersion_ === minVersion, parse_of_preload === parse, ['SemVer', 'Range', 'Comparator'].every((name) =>
                classes[name] === semver[name]));
    `], { cwd: root, encoding: 'utf8' });
    assert.strictEqual(stdout, 'true true function function true true true\n', stderr);
});

test('each file of a function or a class can be imported by a module', async () => {
    for (const folder of ['functions', 'ranges', 'classes']) {
        for (const file of fs.readdirSync(path.join(root, folder)).filter((file) => file.endsWith('.js'))) {
            for (const place of [`${folder}/${file}`, `${folder}/${path.parse(file).name}`]) {
                assert.strictEqual((await import(`${name}/${place}`)).default, require(`${name}/${place}`), place);
            }
        }
    }
});
