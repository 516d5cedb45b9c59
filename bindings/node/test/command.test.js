// SPDX-License-Identifier: Apache-2.0
// The command `semver` beside npm's, each in a process of its own.
'use strict';

const assert = require('node:assert');
const { spawnSync } = require('node:child_process');
const path = require('node:path');
const { test } = require('node:test');
const { ROWS } = require('./command-rows.js');
const { npmFolder } = require('./npm.js');

const HERE = path.join(__dirname, '..', 'bin', 'semver.js');
const NPMS = path.join(npmFolder(), 'node_modules', 'semver', 'bin', 'semver.js');

// The proved program, if it is built: its output is compared too.
const { SEMVER_COMMAND } = process.env;

function answerOf(file, words, input = '') {
    const { status, stdout, stderr } = spawnSync(process.execPath, [file, ...words], { encoding: 'utf8', input });
    return { status, stdout, stderr };
}

function programsAnswer(words, input = '') {
    const { status, stdout, stderr } = spawnSync(SEMVER_COMMAND, words, { encoding: 'utf8', input });
    return { status, stdout, stderr };
}

const LINES = [
    ['1.10.0', 'v1.2.3', ' 1.2.3-rc.1+5 ', 'x', '2.0.0'],
    ['-r', '^1.2', '1.10.0', '1.2.3', '2.0.0'],
    ['--range=>=1.2', '--range', '<2', '1.1.0', '1.4.0', '2.0.0'],
    ['-rv', '-p', '-r', '>=1.2', '1.3.0-rc.1', '1.2.0', '1.1.9'],
    ['-l', '-r', '>=01.2', '1.4.0'],
    ['-r', 'foo', '1.2.3'],
    ['-r'],
    ['1.2.3', '-r'],
    ['latest', '', '-'],
    ['-c', 'release-1.2', 'node-14.x', 'none'],
    ['-c', '--rtl', '1.2.3.4'],
    ['-c', '--rtl', '--ltr', '-p', '1.2.3.4-rc.1'],
    ['-i', '1.2.3'],
    ['-i=major', '1.2.3'],
    ['--inc', 'prerelease', '--preid', 'beta', '-n', '1', '1.2.3'],
    ['-i', 'prerelease', '--preid', 'beta', '-n', 'false', '1.2.3-beta'],
    ['-i', 'prepatch', '--preid=beta.1', '1.2.3'],
    ['-i', '1.2.3', '1.2.4'],
    ['-i', '1.2.3', '-r', '*'],
    ['-i'],
    ['-i', 'pre', '1.2.3'],
    ['-v', '-r', '1.2.3'],
    ['--loose=1.2.3', '=1.2.4', 'a=b=1.2.5'],
];

for (const words of LINES) {
    test(`semver ${JSON.stringify(words)}`, () => {
        assert.deepStrictEqual(answerOf(HERE, words), answerOf(NPMS, words));
    });
}

// What npm's command has not.
for (const [words, input, { status, output, error }] of ROWS) {
    test(`semver ${JSON.stringify(words)} < ${JSON.stringify(String(input))}`, () => {
        assert.deepStrictEqual(answerOf(HERE, words, input), { status, stdout: output, stderr: error });
        if (SEMVER_COMMAND) {
            assert.deepStrictEqual(answerOf(HERE, words, input), programsAnswer(words, input));
        }
    });
}

test('help', () => {
    for (const words of [[], ['--help'], ['1.2.3', '-?', '-r'], ['-h=1.2.3'], ['--explain', '-h']]) {
        const { status, stdout } = answerOf(HERE, words);
        assert.strictEqual(status, 0);
        assert.match(stdout, /^Usage: semver /m);
        if (SEMVER_COMMAND) {
            assert.deepStrictEqual(answerOf(HERE, words), programsAnswer(words));
        }
    }
});
