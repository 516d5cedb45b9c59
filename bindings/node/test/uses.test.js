// SPDX-License-Identifier: Apache-2.0
// Where the installed npm uses its `semver`, in its own sources and in those of its packages: each name is here, each
// function is among those that are compared on generated texts, and each option is one that they are compared with.
'use strict';

const assert = require('node:assert');
const fs = require('node:fs');
const path = require('node:path');
const { test } = require('node:test');
const semver = require('..');
const { OPTIONS, calls } = require('./calls.js');
const { npmFolder } = require('./npm.js');

// How many uses npm 10.8 has at least.
const USES = 100;

// The name of a function by its file: `compareLoose` of `compare-loose`.
const nameOf = (file) => file.replace(/-(.)/g, (_, letter) => letter.toUpperCase());

// The uses in a source: through the module, through names that are taken out of it, and through a module of one function.
function usesIn(source) {
    const found = [];
    const add = (name, after) => found.push({ name, after: after.slice(0, 200) });
    for (const { 1: variable } of source.matchAll(/(\w+) = require\('semver'\)/g)) {
        for (const use of source.matchAll(new RegExp(`\\b${variable}\\.(\\w+)(.*)`, 'g'))) {
            add(use[1], use[2]);
        }
    }
    const taken = [...source.matchAll(/\{([^}]+)\} = (?:require\('semver'\)|semver\b)/g)].flatMap(({ 1: names }) =>
        names.split(',').map((name) => [name.trim(), name.trim()]));
    const single = [...source.matchAll(/(\w+) = require\('semver\/\w+\/([\w-]+)'\)/g)].map(({ 1: variable, 2: file }) =>
        [variable, nameOf(file)]);
    for (const [variable, name] of [...taken, ...single]) {
        for (const use of source.matchAll(new RegExp(`(?<![\\w.])${variable}(\\(.*)`, 'g'))) {
            add(name, use[1]);
        }
    }
    return found;
}

function uses() {
    const folder = npmFolder();
    return fs.readdirSync(folder, { recursive: true })
        .filter((file) => file.endsWith('.js') && !file.includes(`node_modules${path.sep}semver${path.sep}`))
        .map((file) => ({ file, source: fs.readFileSync(path.join(folder, file), 'utf8') }))
        .filter(({ source }) => source.includes("require('semver"))
        .flatMap(({ file, source }) => usesIn(source).map((use) => ({ file, ...use })));
}

test("each use of npm's sources is of what is compared", () => {
    const all = uses();
    console.log(`${all.length} uses of ${new Set(all.map(({ name }) => name)).size} names`);
    assert.ok(all.length >= USES, `${all.length} uses`);
    const options = new Set(OPTIONS.flatMap((one) => Object.keys(one ?? {})));
    for (const { file, name, after } of all) {
        assert.ok(name in semver, `${file}: ${name}`);
        assert.ok(name in calls || typeof semver[name] !== 'function', `${file}: ${name} is not compared`);
        for (const { 1: option } of after.matchAll(/(\w+): (?:true|false)\b/g)) {
            assert.ok(options.has(option), `${file}: the option ${option} of ${name}`);
        }
    }
});
