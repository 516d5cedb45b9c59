// SPDX-License-Identifier: Apache-2.0
// Speed of `pick` beside npm's `npm-pick-manifest`, in one run, on parsed documents: the least of several rounds by turns, in
// microseconds of processor time a call. ROUNDS is how many, 40 if it is not set.
'use strict';

const path = require('node:path');
const { large } = require('./test/documents.js');
const { npmFolder } = require('./test/npm.js');
const pick = require('./pick.js');

const npmPick = require(path.join(npmFolder(), 'node_modules/npm-pick-manifest'));
const ROUNDS = Number(process.env.ROUNDS ?? 40);

function processorTime() {
    const { user, system } = process.cpuUsage();
    return user + system;
}

// The time of a call, in a round of at least 5 ms.
function timeOf(call) {
    const start = processorTime();
    let times = 0;
    let spent = 0;
    do {
        call();
        times++;
        spent = processorTime() - start;
    } while (spent < 5000);
    return spent / times;
}

function least(one, other) {
    const best = [Infinity, Infinity];
    for (let round = 0; round < ROUNDS; round++) {
        best[0] = Math.min(best[0], timeOf(one));
        best[1] = Math.min(best[1], timeOf(other));
    }
    return best;
}

// The questions: a range with the default tag's version, one without it, a tag, a version, and with options.
const QUESTIONS = {
    'a range with the version of `latest`': ['*', {}],
    'a range without it': ['^2', {}],
    'a tag': ['next', {}],
    'the same, published before a day': ['^2', { before: '2016-01-01' }],
    'the same, with versions to avoid': ['^2', { avoid: '>=2.200' }],
};

for (const [what, [wanted, options]] of Object.entries(QUESTIONS)) {
    for (const count of [10, 400, 4000]) {
        const document = large(count);
        const [npm, here] = least(() => npmPick(document, wanted, options), () => pick(document, wanted, options));
        console.log(`| ${what} | ${count} | ${npm.toFixed(1)} | ${here.toFixed(1)} | ${(npm / here).toFixed(1)} |`);
    }
}
