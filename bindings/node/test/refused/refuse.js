// SPDX-License-Identifier: Apache-2.0
// A copy of the package over modules whose heap refuses requests, and a test of each of some calls.
'use strict';

const assert = require('node:assert');
const fs = require('node:fs');
const os = require('node:os');
const path = require('node:path');
const { test } = require('node:test');

const root = path.join(__dirname, '../..');

// The modules of `make -C bindings/wasm` for tests: in the clone that this folder is in, or where the variable says.
const TESTED = process.env.DENIMSCREE_TESTED_WASM ?? path.join(root, '../wasm/build/tested');

// A folder with a copy of the package over the tested modules, and what each instance of one of them exports.
function build(name) {
    const room = fs.mkdtempSync(path.join(os.tmpdir(), 'refused-'));
    process.once('exit', () => fs.rmSync(room, { recursive: true }));
    for (const file of ['index.js', 'pick.js', 'resolve.js', 'package.json', 'internal']) {
        fs.cpSync(path.join(root, file), path.join(room, file), { recursive: true });
    }
    fs.cpSync(TESTED, path.join(room, 'wasm'), { recursive: true });
    const instances = [];
    const { Instance } = WebAssembly;
    WebAssembly.Instance = function (...given) {
        const instance = new Instance(...given);
        if (Object.keys(instance.exports).some((one) => one.startsWith(name))) {
            instances.push(instance.exports);
        }
        return instance;
    };
    return { room, instances };
}

// The n-th request from now on is refused, in the instance that there is; 0: none.
const refuse = ({ instances }, n) => instances.at(-1).heap_refuse(n);

// What the call returns, or `undefined` if it says that memory ran out.
function outcome(call) {
    try {
        return call();
    } catch (error) {
        assert.strictEqual(error.code, 'ERR_MEMORY_ALLOCATION_FAILED', error.stack);
        return undefined;
    }
}

// Makes the call with each of its requests refused in turn, and returns how many there were. After one that was refused the call
// returns what it does, from a new instance.
function refuseEach(copy, call, expected) {
    for (let n = 1; ; n++) {
        const before = copy.instances.length;
        refuse(copy, n);
        const result = outcome(call);
        const isRefused = copy.instances.length === before && copy.instances.at(-1).heap_requests() >= n;
        refuse(copy, 0);
        assert.ok(result !== undefined || isRefused, `request ${n}`);
        if (result !== undefined) {
            assert.deepStrictEqual(result, expected, `request ${n}`);
        }
        assert.deepStrictEqual(call(), expected, `after request ${n}`);
        if (!isRefused) {
            return n - 1;
        }
    }
}

// A test of each call, and one that so many requests were refused.
function testEach(copy, calls, least) {
    let total = 0;
    for (const [name, call] of Object.entries(calls)) {
        test(`${name}: each request for memory is refused`, () => {
            const expected = call();
            call();
            const [before, made] = [copy.instances.at(-1), copy.instances.length];
            const blocks = before.heap_blocks();
            call();
            assert.strictEqual(copy.instances.length, made, 'no new instance');
            assert.strictEqual(before.heap_blocks(), blocks, 'blocks');
            total += refuseEach(copy, call, expected);
        });
    }
    test('requests were refused', () => assert.ok(total > least, `${total} requests`));
}

module.exports = { root, build, refuse, outcome, testEach };
