// SPDX-License-Identifier: Apache-2.0
// Packages with versions, ranges, and which versions npm's own `semver` finds: node data.js PACKAGES VERSIONS RANGES SEED.
// Writes one JSON value: {packages: {name: [version..]}, asked: [[name, range, [version..]]..]}. Versions are shuffled, and
// those that are found are in ascending order.
'use strict';

const { execSync } = require('node:child_process');
const { join } = require('node:path');

const semver = require(join(execSync('npm root -g', { encoding: 'utf8' }).trim(), 'npm', 'node_modules', 'semver'));
const [packages, versions, ranges, first] = process.argv.slice(2).map(Number);
let seed = first;
const below = (limit) => {
    seed = (Math.imul(seed, 1664525) + 1013904223) >>> 0;
    return Math.floor(seed / 4294967296 * limit);
};
const one = (list) => list[below(list.length)];
const number = () => one([0, 0, 1, 1, 2, 3, 5, 9, 10, 38, 239, 240, 255, 256, 65536, below(20), below(2000)]);
const identifiers = () => Array.from({ length: 1 + below(3) }, () => one(['alpha', 'beta', 'rc', 'a', 'x-1', 0, 1, 2, 10, 256, '0a']));
const version = () => `${number()}.${number()}.${number()}${below(4) ? '' : `-${identifiers().join('.')}`}`;
const shuffled = (list) => list.map((item) => [below(1 << 30), item]).sort((a, b) => a[0] - b[0]).map(([, item]) => item);

function many() {
    const found = new Set();
    while (found.size < versions) {
        found.add(version());
    }
    return shuffled([...found]);
}

// A range near the versions of a package: most find some of them.
function range(list) {
    const near = () => one([one(list), one(list), version(), one(list).split('.').slice(0, 1 + below(2)).join('.')]);
    const comparator = () => one(['^', '~', '>=', '<=', '<', '>', '', '=', '^', '<=']) + near();
    switch (below(8)) {
        case 0: return `${comparator()} || ${comparator()}`;
        case 1: return `>${one(list)} <=${one(list)}`;
        case 2: return `${one(list)} - ${one(list)}`;
        case 3: return one(['*', '>=1', '1.x || >=2.5.0 || 5.0.0 - 7.2.3', '<=v10', '']);
        default: return comparator();
    }
}

const all = {};
for (let i = 0; i < packages; i++) {
    all[below(3) ? `package-${i}` : `@scope${below(20)}/${one(['a', 'b.c', 'd_e'])}-${i}`] = many();
}
const names = Object.keys(all);
const asked = [];
while (asked.length < ranges) {
    const name = one(names);
    const text = range(all[name]);
    let read;
    try {
        read = new semver.Range(text);
    } catch {
        continue;
    }
    asked.push([name, text, all[name].filter((it) => read.test(it)).sort(semver.compare)]);
}
process.stdout.write(JSON.stringify({ packages: all, asked }));
