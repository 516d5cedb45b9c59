// SPDX-License-Identifier: Apache-2.0
// Versions of npm's packages that fit together, over the proved library npm_calls.
'use strict';

const { documentOf, objectText } = require('./internal/calls/members.js');
const { call } = require('./internal/calls/native.js');
const { quoted, textOfTime, wellFormed } = require('./internal/pick/document.js');
const { documentsText, lockText, textOf } = require('./internal/resolve/shorter.js');

const GROUPS = ['dev', 'optional', 'peer'];
const STEPS = 10_000_000;

const CODES = { manifest: 'EINVALIDMANIFEST', packuments: 'EINVALIDDOCUMENTS', lock: 'EINVALIDLOCK' };

// What is wrong with a call, by the name that `npm_calls.h` has and the member.
const FAULTS = {
    'no_version node': 'nodeVersion is no version',
    'no_json manifest': 'the manifest cannot be read: it has half a character, or is nested too deep',
    'invalid_manifest manifest': 'the manifest is no object, or its version or a dependency is no string',
    'no_json packuments': 'the documents cannot be read: they have half a character, or are nested too deep',
    'no_object packuments': 'the documents are no object',
    'no_json lock': 'the lock file cannot be read: it is no JSON, has half a character, or is nested too deep',
    'not_flat lockfile': 'lockfile takes flat: without it dependencies of versions are not selected',
    'omits lockfile': 'lockfile takes no omit: a lock file has all groups',
};

// The code and the message.
function faultOf({ name, member: [member], message }) {
    const code = CODES[member] ?? 'EINVALIDOPTION';
    return [code, FAULTS[`${name} ${member}`] ?? `${member === 'lock' ? 'the lock file' : member}: ${message}`];
}

const made = (code, message, Kind = Error) => Object.assign(new Kind(message), { code });

// The JSON of a time, if there is one.
function timeOf(before) {
    if (before === null || before === undefined || before === '') {
        return undefined;
    }
    const time = +new Date(before);
    if (Number.isNaN(time)) {
        throw made('EINVALIDOPTION', 'before is no time', TypeError);
    }
    return JSON.stringify(textOfTime(time));
}

function stepsOf(steps) {
    if (!Number.isSafeInteger(steps) || steps < 0) {
        throw made('EINVALIDOPTION', 'steps must be a whole number', TypeError);
    }
    return steps;
}

// The JSON of a text, if it is not empty. Half a character becomes a whole one, which no version has.
const textIfAny = (text) => (text === '' ? undefined : quoted(text));

// The JSON of a version, if there is one.
function versionOf(nodeVersion) {
    const version = nodeVersion ?? '';
    if (typeof version !== 'string') {
        throw made('EINVALIDOPTION', 'nodeVersion must be a string', TypeError);
    }
    return textIfAny(version);
}

// The text of a lock file, if there is one that is not empty.
const lockOf = (lock) => (lock === null || lock === undefined ? '' : wellFormed(lockText(lock))) || undefined;

// The value of an option that is true or false.
function markOf(name, value) {
    const mark = value ?? false;
    if (typeof mark !== 'boolean') {
        throw made('EINVALIDOPTION', `${name} must be true or false`, TypeError);
    }
    return mark;
}

function omitsOf(omit) {
    const named = [omit ?? []].flat();
    if (named.some((group) => !GROUPS.includes(group))) {
        throw made('EINVALIDOPTION', `omit takes ${GROUPS.join(', ')}`, TypeError);
    }
    return JSON.stringify(GROUPS.filter((group) => named.includes(group)));
}

// The options, each of which is read once.
const optionsOf = ({ defaultTag, before, nodeVersion, lock, steps = STEPS, omit, flat, lowest, lockfile }) =>
    ({ defaultTag, before, nodeVersion, lock, steps, omit, flat, lowest, lockfile });

// The members of the call beside the manifest and the documents.
const membersOf = ({ defaultTag, before, nodeVersion, lock, steps, omit, flat, lowest, lockfile }) => ({
    tag: textIfAny(String(defaultTag ?? '')),
    before: timeOf(before),
    node: versionOf(nodeVersion),
    lock: documentOf(lockOf(lock)),
    steps: stepsOf(steps),
    omit: omitsOf(omit),
    flat: markOf('flat', flat),
    lowest: markOf('lowest', lowest),
    lockfile: markOf('lockfile', lockfile),
});

// resolve(manifest, documents, options): the versions that fit together, or what cannot be installed together.
function resolve(manifest, documents, options = {}) {
    const given = optionsOf(options);
    const [root, packuments] = [textOf(manifest), documentsText(documents, given.lockfile === true)];
    const text = objectText({ manifest: documentOf(root), packuments: documentOf(packuments), ...membersOf(given) });
    const { refusal, answer } = call('resolve', text);
    if (refusal) {
        throw made(...faultOf(refusal));
    }
    return answer;
}

module.exports = resolve;
