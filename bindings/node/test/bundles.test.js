// SPDX-License-Identifier: Apache-2.0
// The package in a bundle: for Node, for a browser, and for a host that takes a module as a file. esbuild and chromium are Debian's.
'use strict';

const assert = require('node:assert');
const { spawnSync } = require('node:child_process');
const fs = require('node:fs');
const os = require('node:os');
const path = require('node:path');
const { test } = require('node:test');
const { pathToFileURL } = require('node:url');

const root = path.join(__dirname, '..');
const { name } = require('../package.json');

const room = fs.mkdtempSync(path.join(os.tmpdir(), 'bundle-'));
process.once('exit', () => fs.rmSync(room, { recursive: true }));
fs.mkdirSync(path.join(room, 'node_modules'));
fs.symlinkSync(root, path.join(room, 'node_modules', name));

// What is asked, and what the answers are. `resolve` is for browsers too; `pick` needs Node's `path`.
const ASKED = `
    const beyond = semver.leastBeyond('>1.2.9007199254740991', '<1');
    const answers = [semver.satisfies('1.9.0', '^1.2'), semver.maxSatisfying(['1.0.0', '1.2.3', '2.0.0'], '^1'), String(beyond), semver.satisfies(beyond, '1'),
        semver.validRange('1.2 - 3'), semver.sort(['1.0.0', '1.0.0-a']).join(), Array.from(semver.key('1.2.3')).join(), resolve({}, {}).outcome];
`;
const ANSWERS = [true, '1.2.3', '1.2.9007199254740992', true, '>=1.2.0 <4.0.0-0', '1.0.0-a,1.0.0', '1,2,3,255', 'selected'];
fs.writeFileSync(path.join(room, 'app.js'), `
    import semver from '${name}';
    import { satisfies } from '${name}';
    import resolve from '${name}/resolve';
    ${ASKED}
    export { answers };
    const text = JSON.stringify(satisfies === semver.satisfies ? answers : 'two packages');
    if (typeof document === 'undefined') console.log(text); else document.body.textContent = text;
`);

function run(command, words) {
    const { status, stdout, stderr, error } = spawnSync(command, words, { cwd: room, encoding: 'utf8', timeout: 120000 });
    assert.strictEqual(error, undefined, `there is no ${command}: apt-get install ${command}`);
    assert.strictEqual(status, 0, stderr);
    return stdout;
}

const bundle = (...words) => run('esbuild', ['app.js', '--bundle', '--log-level=error', ...words]);

test('a bundle for Node, with the modules beside it', () => {
    bundle('--platform=node', '--outfile=out/inside/deep/app.js');
    fs.cpSync(path.join(root, 'wasm'), path.join(room, 'out/wasm'), { recursive: true });
    assert.deepStrictEqual(JSON.parse(run(process.execPath, ['out/inside/deep/app.js'])), ANSWERS);
});

test('a bundle for Node that leaves the package out', () => {
    bundle('--platform=node', `--external:${name}`, '--outfile=out/app.js');
    assert.deepStrictEqual(JSON.parse(run(process.execPath, ['out/app.js'])), ANSWERS);
});

test('a bundle of one file for a browser, in Node', () => {
    bundle('--platform=browser', '--outfile=out/browser.js');
    assert.deepStrictEqual(JSON.parse(run(process.execPath, ['out/browser.js'])), ANSWERS);
});

test('a bundle of one file for a browser, in Chromium', () => {
    bundle('--platform=browser', '--outfile=out/page.js');
    const policy = "default-src 'none'; script-src 'self' file: 'wasm-unsafe-eval'";
    fs.writeFileSync(path.join(room, 'out/page.html'),
        `<!doctype html><meta charset="utf-8"><meta http-equiv="Content-Security-Policy" content="${policy}"><body><script src="page.js"></script></body>`);
    const page = run('chromium', ['--headless', '--no-sandbox', '--disable-gpu', '--allow-file-access-from-files', `--user-data-dir=${path.join(room, 'profile')}`,
        '--virtual-time-budget=5000', '--dump-dom', pathToFileURL(path.join(room, 'out/page.html')).href]);
    const [, text] = /<body>(\[.*\])<\/body>/s.exec(page) ?? [];
    assert.deepStrictEqual(JSON.parse(text.replaceAll('&lt;', '<').replaceAll('&gt;', '>')), ANSWERS);
});

test('a bundle for a host that takes a module as a file', () => {
    bundle('--conditions=workerd', '--platform=neutral', '--main-fields=main', '--format=esm', '--loader:.wasm=copy', '--outfile=out/worker.mjs');
    const text = fs.readFileSync(path.join(room, 'out/worker.mjs'), 'utf8');
    const files = fs.readdirSync(path.join(room, 'out')).filter((file) => file.endsWith('.wasm'));
    assert.strictEqual(files.length, 2);
    assert.ok(files.every((file) => text.includes(`from "./${file}"`)), files.join());
    assert.ok(!text.includes('readFileSync'));
});
