// SPDX-License-Identifier: Apache-2.0
// The types: `types.ts` compiles with TypeScript in its strict form, which is Debian's package node-typescript, or `tsc` by
// its name.
'use strict';

const assert = require('node:assert');
const { spawnSync } = require('node:child_process');
const fs = require('node:fs');
const path = require('node:path');
const { test } = require('node:test');

const DEBIAN = '/usr/share/nodejs/typescript/lib/tsc.js';

test('types.ts compiles', () => {
    const options = ['--strict', '--exactOptionalPropertyTypes', '--noEmit', '--module', 'commonjs', '--target', 'es2020'];
    const words = [...options, path.join(__dirname, 'types.ts')];
    const [command, ...before] = fs.existsSync(DEBIAN) ? [process.execPath, DEBIAN] : ['tsc'];
    const { status, stdout, error } = spawnSync(command, [...before, ...words], { encoding: 'utf8' });
    assert.strictEqual(error, undefined, 'there is no TypeScript: apt-get install node-typescript');
    assert.deepStrictEqual({ status, stdout }, { status: 0, stdout: '' });
});
