// SPDX-License-Identifier: Apache-2.0
// A call that is broken off leaves nothing behind: the next call has a new instance of the module, and answers as before.
'use strict';

const assert = require('node:assert');
const { test } = require('node:test');
const vm = require('node:vm');

// What has been made of modules, before the package is loaded.
const made = [];
const { Instance } = WebAssembly;
WebAssembly.Instance = function (...given) {
    const instance = new Instance(...given);
    made.push(instance.exports);
    return instance;
};

const semver = require('..');

const long = `${'^1.2.3 || '.repeat(30)}^4.5.6-rc.1`;
const beyond = semver.leastBeyond('>1.2.9007199254740991', '<1');
const fromBeyond = semver.Range.fromSets([{ lower: { kind: 'before', version: beyond }, upper: { kind: 'end' } }]);

// What is kept, what no text writes, and a few others.
const answers = () => [semver.satisfies('1.2.4', '^1.2.3'), semver.satisfies('4.5.6-rc.2', long), semver.maxSatisfying(['1.2.3', '4.5.6'], long),
    semver.validRange(long).length, String(beyond), semver.compare(beyond, '1.3.0'), fromBeyond.test('1.3.0'), fromBeyond.test('1.2.9'),
    String(fromBeyond), semver.satisfies(beyond, '^1'), semver.sort(['2.0.0', '1.0.0']), String(semver.intersect('^1', '>=1.5'))];

const before = answers();
const isNew = (call) => {
    const count = made.length;
    call();
    const now = answers();
    assert.deepStrictEqual(now, before);
    assert.deepStrictEqual(answers(), before);
    return made.length - count;
};

test('the answers are right', () => {
    assert.deepStrictEqual(before.slice(0, 3), [true, true, '4.5.6']);
    assert.deepStrictEqual(before.slice(4, 10), ['1.2.9007199254740992', -1, true, false, '>=1.2.9007199254740992', true]);
});

test('a call that ends by a trap', () => {
    // The memory of the instance is not what its code left there.
    assert.strictEqual(isNew(() => {
        const { memory } = made.at(-1);
        new Uint8Array(memory.buffer).fill(255, 0, 1 << 18);
        new Uint8Array(memory.buffer).fill(255, memory.buffer.byteLength - (1 << 18));
        try {
            for (let i = 0; i < 1000; i++) {
                semver.intersect(`^1.${i}.0 || ^2`, `>=1.${i}.5 || 3`);
            }
            assert.fail('no trap');
        } catch (error) {
            assert.ok(error instanceof WebAssembly.RuntimeError || error.code === 'ERR_MEMORY_ALLOCATION_FAILED' || error instanceof RangeError, String(error));
        }
    }) >= 1, true);
});

test('a stack that ends inside a call', () => {
    let inside = 0;
    const deeper = (depth) => {
        try {
            deeper(depth + 1);
        } catch {
            // Nothing: the frames above go on near the end of the stack.
        }
        try {
            semver.intersect('^1 || 2', long);
            semver.satisfies('1.2.3', `^1.${depth}.0`);
        } catch (error) {
            inside += error instanceof RangeError ? 1 : 0;
        }
    };
    isNew(() => deeper(0));
    assert.ok(inside > 0, 'the stack ended inside no call');
});

test('a host that stops a call', () => {
    isNew(() => {
        for (let i = 0; i < 5; i++) {
            assert.throws(() => vm.runInNewContext('for (;;) semver.intersect(long, more);', { semver, long, more: `${long} || 3.x` }, { timeout: 5 + i }),
                { code: 'ERR_SCRIPT_EXECUTION_TIMEOUT' });
        }
    });
});

test('a call that makes the memory large', () => {
    const text = `${'x'.repeat(24 << 20)} 1.2.3`;
    assert.strictEqual(isNew(() => {
        assert.strictEqual(String(semver.coerce(text)), '1.2.3');
        assert.ok(made.some(({ memory }) => memory.buffer.byteLength > 64 << 20), 'no memory is large');
    }), 1);
    assert.ok(made.at(-1).memory.buffer.byteLength < 4 << 20);
});

test('a text that no memory holds', () => {
    const text = 'x'.repeat(2 ** 29 - 24);
    assert.strictEqual(isNew(() => assert.throws(() => semver.coerce(text), { code: 'ERR_MEMORY_ALLOCATION_FAILED' })), 1);
});
