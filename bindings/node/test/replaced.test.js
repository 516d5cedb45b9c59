// SPDX-License-Identifier: Apache-2.0
// Built-in functions that a user replaces, and setters that he gives to arrays. None of his code runs amid a call of the library, and
// answers stay as they are whatever his code asks of the package wherever it runs.
'use strict';

const assert = require('node:assert');
const { describe, test } = require('node:test');
const semver = require('..');
const pick = require('../pick.js');
const resolve = require('../resolve.js');
const native = require('../internal/native.js');
const { Caller } = require('../internal/wasm/call.js');
const { m } = require('../internal/wasm/memory.js');
const { large } = require('./documents.js');
const { react } = require('./resolve-rows.json');

// What would be used here too is taken before it is replaced.
const { apply, construct } = Reflect;
const { defineProperty, getOwnPropertyDescriptor, getOwnPropertyNames, getPrototypeOf, setPrototypeOf } = Object;
const OwnArray = Array;

// ---- calls of each function of the library ----

const long = `${'^1.2.3 || '.repeat(30)}^4.5.6-rc.1`;
const beyond = semver.leastBeyond('>1.2.9007199254740991', '<1');
const range = new semver.Range('>=1.2.3-rc.4.a.b <2.0.0-beta.9+c || 5.x');
const versions = ['1.5.0', '1.2.3-rc.4', '0.1.0', '1.5.0+b', '2.0.0-a.10', '2.0.0-a.9'];
const semVers = versions.map((text) => new semver.SemVer(text));
const document = large(12);
document['dist-tags'].long = `1.0.0-${'a'.repeat(400)}`;
document.versions[document['dist-tags'].long] = { version: document['dist-tags'].long };

const calls = {
    valid: () => semver.valid('v1.2.3-rc.1+b'),
    'a SemVer': () => new semver.SemVer('1.2.3-rc.1.a+b.c').prerelease.length,
    compare: () => semver.compare('1.2.3-rc.1', '1.2.3-rc.2'),
    compareBuild: () => semver.compareBuild('1.2.3+b', '1.2.3+a'),
    diff: () => semver.diff('1.2.3', '1.3.0-a'),
    inc: () => semver.inc('1.2.3', 'prerelease', 'beta'),
    coerce: () => `${semver.coerce('release 1.2, of May')} ${semver.coerce('1.70000.3-a', { includePrerelease: true })}`,
    satisfies: () => semver.satisfies('1.2.4', '^1.2.3'),
    'satisfies, loose, white space': () => semver.satisfies('=v1.2.4', '  >1.2.3   <2 ', true),
    'satisfies, a long text': () => semver.satisfies('4.5.6-rc.2', long),
    'satisfies, not ASCII': () => semver.satisfies('1.2.3-\u00e9', '^1.2.3 \ud800'),
    'Range.test': () => range.test('1.5.0') && !range.test(semVers[2]),
    'a version that no text writes': () => semver.satisfies(beyond, '^1') && semver.compare(beyond, '1.0.0') === 1,
    'a range that no text writes': () => String(semver.Range.fromSets([{ lower: { kind: 'after', version: beyond }, upper: { kind: 'end' } }])),
    validRange: () => semver.validRange(' ^1.2   || 1.0 - 2 '),
    toComparators: () => JSON.stringify(semver.toComparators('~1.2 > 1 <3 || 4 - 5.2.3-a')),
    'a refused range': () => semver.validRange('1 foo'),
    maxSatisfying: () => semver.maxSatisfying(versions, '^1.2'),
    minSatisfying: () => semver.minSatisfying({ forEach: (call) => versions.forEach((text) => call(text)) }, range),
    sort: () => semver.sort([...versions]).join(),
    'sort of SemVers': () => semver.rsort([...semVers]).map(({ raw }) => raw).join(),
    'sort of both': () => semver.sort([...versions, ...semVers, beyond]).map((one) => one.raw ?? one).join(),
    sets: () => JSON.stringify(range.sets.map(({ lower, upper }) => [lower.kind, `${lower.version}`, upper.kind, `${upper.version}`])),
    fromSets: () => String(semver.Range.fromSets(range.sets)),
    intersect: () => String(semver.intersect('^1 || ^2', '>=1.5')),
    difference: () => String(semver.difference('>=1', '2')),
    leastBeyond: () => String(semver.leastBeyond('^1.2.3 || ^2', '^1.2.3')),
    leastCommon: () => String(semver.leastCommon(range, '>=1.5')),
    minVersion: () => String(semver.minVersion('>1.0.0-a')),
    subset: () => semver.subset('^1.2', '>=1 <3') && !semver.subset(range, '1'),
    intersects: () => semver.intersects('<1.2.3', '>1.2'),
    gtr: () => semver.gtr('9.0.0', '1 || 2'),
    simplifyRange: () => semver.simplifyRange(['1.0.0', '1.1.0', '2.0.0', '3.0.0'], '1.0.0 || 1.1.0 || 3.0.0 || 4.0.0'),
    key: () => semver.key('1.2.3-rc.1').toString('hex'),
    intervals: () => range.intervals().map(({ lower, upper }) => `${lower.toString('hex')} ${upper.toString('hex')}`).join(),
    pick: () => pick(document, '^1').version,
    'pick, a long key': () => pick(document, 'long').version.length,
    resolve: () => JSON.stringify(resolve({ dependencies: { react: '^18', 'react-hot': '*' } }, react)),
};

// ---- what is replaced ----

const prototypes = {
    Array, String, Number, Boolean, BigInt, Symbol, Object, Function, RegExp, Map, Set, WeakMap, ArrayBuffer, Uint8Array, Uint32Array, Float64Array,
    Error, TypeError, RangeError, TextEncoder, TextDecoder, Memory: WebAssembly.Memory, Instance: WebAssembly.Instance, Buffer,
};
const objects = { Math, JSON, Reflect, WebAssembly, Atomics };

// Each object whose functions may be replaced, by its name.
const places = [
    ...Object.entries(prototypes).flatMap(([name, { prototype }]) => [[`${name}.prototype`, prototype]]),
    ...Object.entries(prototypes), ...Object.entries(objects),
    ['TypedArray.prototype', getPrototypeOf(Uint8Array.prototype)], ['TypedArray', getPrototypeOf(Uint8Array)],
    ['an iterator of an array', getPrototypeOf([][Symbol.iterator]())], ['an iterator of a Set', getPrototypeOf(new Set()[Symbol.iterator]())],
    ['an iterator of a text', getPrototypeOf(''[Symbol.iterator]())], ['globalThis', globalThis],
];

// Puts a function around each of them that is called first, with a name, and returns what puts all back.
function replaceAll(before) {
    const undone = [];
    const around = (name, own) => {
        const replaced = function (...given) {
            before(name);
            return new.target === undefined ? apply(own, this, given)
                : construct(own, given, new.target === replaced ? own : new.target);
        };
        // (for `instanceof`, and for the functions of a constructor)
        if (getOwnPropertyDescriptor(own, 'prototype') !== undefined) {
            replaced.prototype = own.prototype;
            setPrototypeOf(replaced, own);
        }
        return replaced;
    };
    const replaceOne = (name, object, key) => {
        const own = getOwnPropertyDescriptor(object, key);
        const changed = { ...own };
        for (const one of ['value', 'get', 'set']) {
            if (typeof own[one] === 'function' && one in own) {
                changed[one] = around(`${name}.${String(key)}`, own[one]);
            }
        }
        if (own.configurable && (changed.value !== own.value || changed.get !== own.get)) {
            undone.push([object, key, own]);
            return () => defineProperty(object, key, changed);
        }
        return () => {};
    };
    const all = places.flatMap(([name, object]) => [...getOwnPropertyNames(object), Symbol.iterator, Symbol.hasInstance, Symbol.species]
        .filter((key) => key !== 'constructor' && getOwnPropertyDescriptor(object, key) !== undefined
            && !(object === globalThis && !(key in prototypes)))
        .map((key) => replaceOne(name, object, key)));
    for (let i = 0; i < all.length; i++) {
        all[i]();
    }
    return () => {
        for (let i = undone.length - 1; i >= 0; i--) {
            defineProperty(undone[i][0], undone[i][1], undone[i][2]);
        }
    };
}

// Gives each array a setter and a getter for its first elements, and returns what takes them away.
function giveSetters(before) {
    for (let i = 0; i < 100; i++) {
        const accessors = { set() { before(`the setter of ${i}`); }, get() { before(`the getter of ${i}`); }, configurable: true };
        defineProperty(OwnArray.prototype, i, accessors);
    }
    return () => {
        for (let i = 0; i < 100; i++) {
            delete OwnArray.prototype[i];
        }
    };
}

// What the call returns while the functions are replaced.
function answer(call, replace, before) {
    call();
    const undo = replace(before);
    try {
        return call();
    } finally {
        undo();
    }
}

// ---- tests ----

// Whether a call of the library is not done.
let depth = 0;
const isAmid = () => depth > 0 || m.isBroken;
const { run } = Caller.prototype;
Caller.prototype.run = function (call) {
    depth++;
    const result = apply(run, this, [call]);
    depth--;
    return result;
};

for (const [what, replace] of Object.entries({ 'a function that is replaced': replaceAll, 'a setter of arrays': giveSetters })) {
    describe(`${what} is not called amid a call of the library`, () => {
        let total = 0;
        for (const [name, call] of Object.entries(calls)) {
            test(name, () => {
                const expected = call();
                let count = 0;
                let first;
                const found = answer(call, replace, (place) => {
                    count++;
                    if (isAmid()) {
                        first ??= place;
                    }
                });
                assert.strictEqual(first, undefined);
                assert.strictEqual(found, expected);
                total += count;
            });
        }
        test('others are', () => assert.ok(total > 0 || replace === giveSetters));
    });
}

// Code of a user that asks too: no place has the range then that was kept there.
let isAsking = false;
function ask() {
    if (isAsking) {
        return;
    }
    isAsking = true;
    native.forget(0, 576);
    for (let place = 0; place < 100; place++) {
        native.keep('0*', place);
    }
    semver.satisfies('1.2.3', '>2 || 1.x');
    pick(document, '*');
    isAsking = false;
}

describe('answers stay if code of a user asks too, wherever it runs', () => {
    for (const [name, call] of Object.entries(calls)) {
        test(name, () => {
            const expected = call();
            for (let n = 1, count = n; count >= n; n++) {
                count = 0;
                const found = answer(call, replaceAll, () => {
                    count += isAsking ? 0 : 1;
                    if (count === n) {
                        ask();
                    }
                });
                assert.strictEqual(found, expected, `asked at ${n}`);
            }
            assert.strictEqual(call(), expected);
        });
    }
});
