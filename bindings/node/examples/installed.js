#!/usr/bin/env node
// SPDX-License-Identifier: Apache-2.0
// Lists each dependency of the packages in a folder whose installed version does not satisfy its range.
//
//     node node_modules/denimscree-semver/examples/installed.js node_modules
//
// A line for each: the package that asks, the dependency, the range, and the version that is installed, or `missing`. A
// dependency is sought as Node does: in the package's own node_modules, then in those of the folders above. Ranges that
// are no ranges of npm's, as a tag or an address, are counted and not judged. Status 1 where there is a line.
'use strict';

const fs = require('node:fs');
const path = require('node:path');
const semver = require('..');

function readPackage(folder) {
    try {
        return JSON.parse(fs.readFileSync(path.join(folder, 'package.json'), 'utf8'));
    } catch (error) {
        if (error.code === 'ENOENT' || error.code === 'ENOTDIR') {
            return null;
        }
        throw new Error(`${folder}: ${error.message}`);
    }
}

const foldersIn = (folder) => (fs.existsSync(folder) ? fs.readdirSync(folder) : [])
    .filter((name) => !name.startsWith('.'))
    .map((name) => path.join(folder, name));

// The packages of a node_modules, those of scopes and those that packages have for themselves too.
function* packagesIn(modules) {
    for (const folder of foldersIn(modules)) {
        if (path.basename(folder).startsWith('@')) {
            yield* packagesIn(folder);
        } else {
            const manifest = readPackage(folder);
            if (manifest) {
                yield { folder, manifest };
                yield* packagesIn(path.join(folder, 'node_modules'));
            }
        }
    }
}

// The version that Node would find from a folder, no higher than `top`, or null.
function installedVersion(folder, name, top) {
    for (let at = folder; ; at = path.dirname(at)) {
        const found = path.basename(at) !== 'node_modules' && readPackage(path.join(at, 'node_modules', name));
        if (found) {
            return found.version;
        }
        if (at === top || at === path.dirname(at)) {
            return null;
        }
    }
}

// The dependencies of a package: `npm:other@range` means that range of another package under this name.
function asked(manifest) {
    const optional = { ...manifest.optionalDependencies };
    for (const [name, { optional: is }] of Object.entries(manifest.peerDependenciesMeta ?? {})) {
        if (is) {
            optional[name] = true;
        }
    }
    return Object.entries({ ...manifest.peerDependencies, ...manifest.optionalDependencies, ...manifest.dependencies })
        .map(([name, range]) => ({
            name,
            range: range.replace(/^npm:@?[^@]*@/, '') || '*',
            isOptional: name in optional,
        }));
}

// Judges each dependency below a node_modules: how many were looked at, which are wrong, which have no range.
function judge(modules) {
    const top = path.dirname(path.resolve(modules));
    const result = { packages: 0, dependencies: 0, wrong: [], notRanges: [] };
    for (const { folder, manifest } of packagesIn(path.resolve(modules))) {
        result.packages++;
        for (const { name, range, isOptional } of asked(manifest)) {
            const version = installedVersion(folder, name, top);
            const row = { asks: `${manifest.name}@${manifest.version}`, name, range, version };
            result.dependencies++;
            if (version === null && isOptional) {
                continue;
            }
            if (semver.validRange(range) === null) {
                result.notRanges.push(row);
            } else if (version === null || !semver.satisfies(version, range)) {
                result.wrong.push(row);
            }
        }
    }
    return result;
}

// A text for a terminal: what it would obey, and what no line has, by its number.
const shown = (text) => String(text).replace(/[\x00-\x1f\x7f-\x9f\u061c\u200e\u200f\u2028-\u202e\u2066-\u2069]/g,
    (character) => `\\u${character.charCodeAt(0).toString(16).padStart(4, '0')}`);

module.exports = { judge, shown };

if (require.main === module) {
    const { packages, dependencies, wrong, notRanges } = judge(process.argv[2] ?? 'node_modules');
    wrong.forEach(({ asks, name, range, version }) =>
        console.log([asks, name, range, version ?? 'missing'].map(shown).join('\t')));
    console.error(`${packages} packages, ${dependencies} dependencies, ${wrong.length} not satisfied, `
        + `${notRanges.length} without a range`);
    process.exitCode = wrong.length > 0 ? 1 : 0;
}
