// SPDX-License-Identifier: Apache-2.0
// Each request for memory of each call of `pick` refused in turn.
'use strict';

const path = require('node:path');
const { build, testEach } = require('./refused/refuse.js');
const { large } = require('./documents.js');

const copy = build('npm_call');
const pick = require(path.join(copy.room, 'pick.js'));

const long = `1.0.0-${'a'.repeat(400)}`;
const document = large(12);
document['dist-tags'].long = long;
document.versions[long] = { version: long };

// The version that is picked, or npm's code.
function told(wanted, options) {
    try {
        return pick(document, wanted, options).version;
    } catch (error) {
        if (error.code === 'ERR_MEMORY_ALLOCATION_FAILED') {
            throw error;
        }
        return error.code;
    }
}

testEach(copy, {
    'a range': () => told('^1'),
    'a range without the version of `latest`': () => told('~2.0'),
    'a version': () => told('=v1.0.1'),
    'a tag': () => told('next'),
    'a long key': () => told('long'),
    'with versions to avoid': () => told('^1', { avoid: '1.0.3 || >=2.0.0-rc.1' }),
    'and with others in their place': () => told('^1', { avoid: '<2', avoidStrict: true }),
    'published before a day': () => told('*', { before: '2015-01-01T03:00:00.000Z' }),
    'a range with none': () => told('^9'),
    'no range and no tag': () => told('a b'),
}, 200);
