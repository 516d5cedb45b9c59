// SPDX-License-Identifier: Apache-2.0
// Each request for memory of each call of `resolve` refused in turn.
'use strict';

const path = require('node:path');
const { build, testEach } = require('./refused/refuse.js');
const { react, tree } = require('./resolve-rows.json');

const copy = build('npm_call');
const resolve = require(path.join(copy.room, 'resolve.js'));

const asks = (dependencies) => ({ dependencies });

// The answer, or the code of the error.
function told(...asked) {
    try {
        return resolve(...asked);
    } catch (error) {
        if (error.code === 'ERR_MEMORY_ALLOCATION_FAILED') {
            throw error;
        }
        return error.code;
    }
}

testEach(copy, {
    'versions that fit together': () => told(asks({ react: '^18', 'react-hot': '*' }), react),
    'with options': () => told(asks({ 'react-hot': '*' }), react, { defaultTag: 'old', before: '2023-01-01', omit: 'dev' }),
    'none that do': () => told(asks({ react: '^18', 'react-hot': '^4' }), react),
    'a name without a document': () => told(asks({ gone: '*' }), react),
    'flat, and the lowest versions': () => told(asks({ a: '*' }), tree, { flat: true, lowest: true, nodeVersion: '20.0.0' }),
    'a lock file': () => told(asks({ a: '*' }), tree, { lock: { lockfileVersion: 3, packages: { 'node_modules/a': { version: '1.0.0' } } } }),
    'a lock file with a fault': () => told(asks({ a: '*' }), tree, { lock: '{"lockfileVersion":3,"packages":{"":7}}' }),
    'a lock file as the answer': () => told(asks({ a: '*' }), tree, { flat: true, lockfile: true }),
    'no steps': () => told(asks({ react: '*' }), react, { steps: 0 }),
    'no manifest': () => told(7, react),
    'no documents': () => told(asks({ react: '*' }), 7),
}, 350);
