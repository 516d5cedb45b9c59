// SPDX-License-Identifier: Apache-2.0
// The names that npm has and this package has not, and the other way round; and the modules under their paths.
'use strict';

const assert = require('node:assert');
const fs = require('node:fs');
const path = require('node:path');
const { describe, test } = require('node:test');
const semver = require('..');
const { createNpm, npmFolder } = require('./npm.js');

const npm = createNpm();

describe('names', () => {
    const added = ['intersect', 'difference', 'leastBeyond', 'leastCommon', 'key'];
    test("npm's names are there in npm's order, and the added ones after them", () => {
        assert.deepStrictEqual(Object.keys(semver), [...Object.keys(npm), ...added]);
    });
    test('constants are those of npm', () => {
        assert.strictEqual(semver.SEMVER_SPEC_VERSION, npm.SEMVER_SPEC_VERSION);
        assert.deepStrictEqual(semver.RELEASE_TYPES, npm.RELEASE_TYPES);
    });
    const { name, version, exports } = require('../package.json');
    const modules = (folder) => fs.readdirSync(folder).filter((file) => file.endsWith('.js'))
        .map((file) => path.parse(file).name);
    for (const folder of ['functions', 'ranges', 'classes']) {
        const other = path.join(npmFolder(), 'node_modules/semver', folder);
        const theirs = modules(other);
        const ours = modules(path.join(__dirname, '..', folder));
        test(`${folder}/: each is what npm has there, and has the same name`, () => {
            for (const file of ours) {
                const mine = require(`${name}/${folder}/${file}`);
                const its = require(path.join(other, file));
                const nameOf = (module, all) => Object.keys(all).find((key) => all[key] === module);
                assert.strictEqual(nameOf(mine, semver), nameOf(its, npm), file);
                assert.strictEqual(mine, require(`${name}/${folder}/${file}.js`));
                assert.ok(fs.existsSync(path.join(__dirname, '..', folder, `${file}.d.ts`)), file);
            }
        });
        test(`${folder}/: what npm has there and this package has not`, () => {
            assert.deepStrictEqual(theirs.filter((file) => !ours.includes(file)), []);
        });
    }
    test('index, preload and package.json', () => {
        for (const file of ['', '/index', '/index.js', '/preload', '/preload.js']) {
            assert.strictEqual(require(name + file), semver, file);
        }
        assert.deepStrictEqual(Object.keys(require(`${name}/classes`)), ['SemVer', 'Range', 'Comparator']);
        assert.strictEqual(require(`${name}/package.json`).version, version);
        assert.ok(exports);
    });
    test("internal/: npm's modules are there with what npm's have, and no other", () => {
        const folder = path.join(npmFolder(), 'node_modules/semver/internal');
        for (const file of modules(folder)) {
            const [mine, its] = [require(`${name}/internal/${file}`), require(path.join(folder, file))];
            assert.strictEqual(mine, require(`${name}/internal/${file}.js`));
            assert.strictEqual(typeof mine, typeof its, file);
            assert.deepStrictEqual(Object.keys(mine), Object.keys(its), file);
        }
        for (const file of ['native', 'native.js', 'npm/re', 'words']) {
            assert.throws(() => require(`${name}/internal/${file}`), { code: 'MODULE_NOT_FOUND' }, file);
        }
    });
    test("the regular expressions and the constants are npm's", () => {
        const folder = path.join(npmFolder(), 'node_modules/semver/internal');
        for (const file of ['re', 'constants']) {
            assert.deepStrictEqual({ ...require(`${name}/internal/${file}`) }, { ...require(path.join(folder, file)) });
        }
        assert.deepStrictEqual([semver.re, semver.src, semver.tokens], [npm.re, npm.src, npm.tokens]);
        assert.strictEqual(semver.re, require(`${name}/internal/re`).re);
    });
});

// A property as it is declared: whether it is a value of some type or is computed, and what may be done to it.
function declared(object, key) {
    const { value, get, set, ...rest } = Object.getOwnPropertyDescriptor(object, key) ?? {};
    return { ...rest, is: get || set ? `${typeof get} ${typeof set}` : typeof value };
}

describe('properties are declared as with npm', () => {
    test('of the module', () => {
        Object.keys(npm).forEach((key) => assert.deepStrictEqual(declared(semver, key), declared(npm, key), key));
    });
    const added = { SemVer: [], Comparator: [], Range: ['toJSON', 'set', 'range', 'sets', 'intervals'] };
    for (const [name, more] of Object.entries(added)) {
        test(`of ${name}`, () => {
            const [mine, its] = [semver[name], npm[name]];
            Reflect.ownKeys(its).forEach((key) => assert.deepStrictEqual(declared(mine, key), declared(its, key), key));
            assert.deepStrictEqual([mine.length, mine.name], [its.length, its.name]);
            for (const key of Reflect.ownKeys(its.prototype)) {
                assert.deepStrictEqual(declared(mine.prototype, key), declared(its.prototype, key), key);
                assert.strictEqual(mine.prototype[key].length, its.prototype[key].length, key);
                assert.strictEqual(mine.prototype[key].name, its.prototype[key].name, key);
            }
            const keys = Reflect.ownKeys(mine.prototype).filter((key) => !Reflect.ownKeys(its.prototype).includes(key));
            assert.deepStrictEqual(keys.sort(), more.sort());
        });
    }
    test('of functions: the number of their parameters', () => {
        for (const [key, its] of Object.entries(npm)) {
            assert.strictEqual(semver[key].length, its.length, key);
        }
    });
    const makes = {
        'a SemVer': (s) => new s.SemVer('v1.2.3-rc.1+b', { loose: true }),
        'a Comparator': (s) => new s.Comparator('>=1.2.3-rc'),
        'the comparators of a Range': (s) => new s.Range('^1.2 || * 3').set.flat(),
        'a Range': (s) => new s.Range(' ^1.2  || 3.x', { includePrerelease: true }),
    };
    for (const [name, make] of Object.entries(makes)) {
        test(`${name} as JSON`, () => assert.strictEqual(JSON.stringify(make(semver)), JSON.stringify(make(npm))));
    }
});

describe('compareIdentifiers is as with npm', () => {
    const values = ['0', '1', '01', '10', 'a', 'A', 'b', '1a', '-', '', '9007199254740993', '9007199254740992', 0, 1,
        10, 5.5, null, undefined, true, NaN, [], ['1'], {}, new String('1')];
    test('for values of all types', () => {
        for (const one of values) {
            for (const other of values) {
                for (const name of ['compareIdentifiers', 'rcompareIdentifiers']) {
                    assert.strictEqual(semver[name](one, other), npm[name](one, other), `${one} ${other}`);
                }
            }
        }
    });
});
