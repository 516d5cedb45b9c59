// SPDX-License-Identifier: Apache-2.0
// Worker threads: each loads the package, asks the same as the main thread at the same time, and ends; some are ended
// amid their work.
'use strict';

const assert = require('node:assert');
const { test } = require('node:test');
const { isMainThread, parentPort, Worker, workerData } = require('node:worker_threads');
const semver = require('..');

const THREADS = 8;
const ROUNDS = 20000;

// Lists, sets, and versions and ranges that no text writes.
function lists(i) {
    const versions = [`1.${i}.0+b`, '1.2.3', semver.leastBeyond('>1.2.9007199254740991', '<1'), `0.${i}.0-rc`];
    const range = new semver.Range('1 || 2 || '.repeat(20) + `^${i}`);
    const made = semver.Range.fromSets(range.sets);
    const greatest = semver.maxSatisfying(versions, made);
    return semver.sort(versions)[0].length + Number(String(greatest).slice(0, 1)) + made.sets.length;
}

// A number that depends on each result. The ranges are more than are kept.
function work() {
    let sum = 0;
    for (let i = 0; i < ROUNDS; i++) {
        const range = `^${i % 7}.${i % 1000}.0 || >=5 <6`;
        sum += semver.satisfies(`${i % 7}.${(i * 3) % 1000}.1`, range) ? i : 1;
        sum += new semver.Range(`>=${i % 5}`).test('3.0.0') ? 2 : 0;
        sum += i % 100 === 0 ? lists(i) : 0;
    }
    return sum + semver.leastBeyond('>1.2.9007199254740991', '<1').patch;
}

async function result(worker) {
    return new Promise((resolve, reject) => {
        let said;
        worker.on('message', (sum) => { said = sum; });
        worker.on('error', reject);
        worker.on('exit', () => resolve(said));
    });
}

if (isMainThread) {
    test('threads at once compute what one does', async () => {
        const workers = Array.from({ length: THREADS }, () => new Worker(__filename, { workerData: 'once' }));
        const expected = work();
        const sums = await Promise.all(workers.map(result));
        assert.deepStrictEqual(sums, Array(THREADS).fill(expected));
    });
    test('threads may be ended amid their work', async () => {
        for (let i = 0; i < THREADS; i++) {
            const worker = new Worker(__filename, { workerData: 'for ever' });
            await new Promise((resolve) => { worker.once('message', resolve); });
            assert.strictEqual(await worker.terminate(), 1);
        }
        assert.ok(semver.satisfies('1.2.3', '^1'));
    });
} else if (workerData === 'once') {
    parentPort.postMessage(work());
} else {
    parentPort.postMessage('begins');
    for (;;) {
        work();
    }
}
