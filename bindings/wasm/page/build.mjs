// SPDX-License-Identifier: Apache-2.0
// Makes the page, one file with all in it:  node build.mjs MODULE.wasm PAGE.html
import { execFileSync } from 'node:child_process';
import { createHash } from 'node:crypto';
import { readFileSync, writeFileSync } from 'node:fs';
import path from 'node:path';

const read = (name) => readFileSync(new URL(name, import.meta.url), 'utf8');
const hash = (text) => `'sha256-${createHash('sha256').update(text).digest('base64')}'`;

// The script of the page, with the module in it as base64.
function scriptOf(module) {
    const words = ['--bundle', '--format=iife', '--minify', '--target=es2022', '--charset=utf8', '--loader:.wasm=binary', `--alias:denimscree.wasm=${path.resolve(module)}`];
    const script = execFileSync('esbuild', [new URL('page.js', import.meta.url).pathname, ...words], { encoding: 'utf8', maxBuffer: 64 << 20 }).trim();
    if (script.includes('</script')) {
        throw new Error('the script would end its element');
    }
    return script;
}

const [module, page] = process.argv.slice(2);
const [script, style] = [scriptOf(module), read('page.css').trim()];
const policy = `default-src 'none'; script-src ${hash(script)} 'wasm-unsafe-eval'; style-src ${hash(style)}; base-uri 'none'; form-action 'none'`;
const parts = { '@POLICY@': policy, '@STYLE@': style, '@SCRIPT@': script };
writeFileSync(page, read('page.html').replace(/@[A-Z]+@/g, (name) => parts[name]));
