// SPDX-License-Identifier: Apache-2.0
// What npm's own `semver` says of the versions and ranges of values.sql, for a comparison with the databases. Reads lines on
// standard input: `v VERSION` and `r RANGE`. Prints the versions in npm's order; with `pairs` a line for each two ranges that
// have no prerelease and admit a version: RANGE|OTHER|true or false, by `intersects`, and RANGE|OTHER|covers if the second is a
// `subset` of the first; and without a word RANGE|VERSION for each version that satisfies its range.
//
// Left out is what docs/DIFFERENCES.md lists: npm compares identifiers above 9007199254740991 as doubles, and drops
// the alternatives beside one of all versions.
'use strict';

const { execSync } = require('node:child_process');
const { readFileSync } = require('node:fs');
const { join } = require('node:path');

const globals = execSync('npm root -g', { encoding: 'utf8' }).trim();
const semver = require(join(globals, 'npm', 'node_modules', 'semver'));
const lines = readFileSync(0, 'utf8').split('\n').filter((line) => line !== '');
const of = (letter) => lines.filter((line) => line[0] === letter).map((line) => line.slice(2));
const isDouble = (text) => /\b\d{17,}/.test(text);
const versions = of('v').filter((version) => !isDouble(version));
const ranges = of('r').filter((range) => !isDouble(range) && !range.includes('* ||'));
const kinds = {
    order: () => versions.map((version) => new semver.SemVer(version)).sort(semver.compare).map((version) => version.raw),
    pairs: () => {
        const plain = ranges.filter((range) => !/\d-\S/.test(range) && semver.minVersion(range) !== null);
        const lines = (one, other) => [`${one}|${other}|${semver.intersects(one, other)}`,
            ...semver.subset(other, one) ? [`${one}|${other}|covers`] : []];
        return plain.flatMap((one) => plain.flatMap((other) => lines(one, other)));
    },
    satisfied: () => ranges.flatMap((text) => {
        const range = new semver.Range(text);
        return versions.filter((version) => range.test(version)).map((version) => `${text}|${version}`);
    }).sort(),
};
const out = kinds[process.argv[2] ?? 'satisfied']();
process.stdout.write(out.map((line) => `${line}\n`).join(''));
