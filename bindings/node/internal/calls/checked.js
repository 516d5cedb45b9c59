// SPDX-License-Identifier: Apache-2.0
// Calls about a lock file: `check` and `audit`.
'use strict';

const { quoted } = require('../pick/document.js');
const { objectText, textOf } = require('./members.js');
const { call } = require('./native.js');

const CODES = {
    lock: 'EINVALIDLOCK', manifest: 'EINVALIDMANIFEST', workspaces: 'EINVALIDMANIFEST', advisories: 'EINVALIDADVISORIES',
};

// The names that the library has for options.
const NAMES = { nodeVersion: 'node' };
const OPTIONS = Object.fromEntries(Object.entries(NAMES).map(([name, member]) => [member, name]));

// The error of a call: the member is the path to what is wrong, and the line and the column are in the text of a document, if it is given so.
function errorOf({ name, member, line, column, message }) {
    const [first, ...others] = member;
    const path = [OPTIONS[first] ?? first, ...others];
    const where = path.map((step) => JSON.stringify(step)).join(', ');
    return Object.assign(new Error(`${where}: ${message}`), { code: CODES[first] ?? 'EINVALIDOPTION', fault: name, member: path, line, column });
}

// Makes a call. An option that is null or undefined is not given.
function checked(name, documents, options) {
    const given = Object.entries({ ...documents, ...options }).filter(([, value]) => value !== null && value !== undefined);
    const members = given.map(([key, value]) => [NAMES[key] ?? key, typeof value === 'string' ? quoted(value) : textOf(value)]);
    const { refusal, answer } = call(name, objectText(Object.fromEntries(members)));
    if (refusal) {
        throw errorOf(refusal);
    }
    return answer;
}

module.exports = { checked };
