// SPDX-License-Identifier: Apache-2.0
// The key of the version that is picked. The library picks it, of a document that has what counts for it.
'use strict';

const { valid } = require('../versions.js');
const { call } = require('../calls/native.js');
const { objectText } = require('../calls/members.js');
const { documentText, quoted, textOfTime } = require('./document.js');
const { keysOf, own } = require('./members.js');

// The outcome if a version is picked. Others say why there is none.
const PICKED = 'picked';
// A text that is a tag, if it is anything: no version and no range begins with such a letter.
const TAG = /^[a-uwyz][\w.~-]*$/i;

// ---- the question ----

// The versions of engines, of which npm passes the same again and again.
const read = new Map();
const MOST_READ = 16;

// The version of an engine: undefined if it is not known, null if the text is no version.
function engineVersion(version) {
    if (!version) {
        return undefined;
    }
    if (!read.has(version)) {
        if (read.size >= MOST_READ) {
            read.clear();
        }
        read.set(version, valid(version));
    }
    return read.get(version);
}

// The tags that count, with the keys that they name.
function tagsOf(tags, names) {
    const found = new Map();
    for (const name of names) {
        const key = own(tags, name);
        if (typeof key === 'string') {
            found.set(name, key);
        }
    }
    return found;
}

// The arguments, as the library reads them.
function questionOf({ packument, wanted, options, staged, restricted }) {
    const { time: times, versions } = packument;
    const defaultTag = String(options.defaultTag);
    const text = wanted || '';
    return {
        text,
        defaultTag,
        versions,
        staged,
        restricted,
        times,
        tags: tagsOf(packument['dist-tags'], [defaultTag, text]),
        before: options.before && times ? +new Date(options.before) : null,
        avoid: options.avoid ? String(options.avoid) : '',
        known: { node: engineVersion(options.nodeVersion), npm: engineVersion(options.npmVersion) },
        avoidStrict: Boolean(options.avoidStrict),
        includeStaged: Boolean(options.includeStaged),
    };
}

// ---- the result ----

const timeOf = (before) => (before === null || Number.isNaN(before) ? undefined : quoted(textOfTime(before)));

// An engine whose text is no version is passed as 0.0.0, which nothing fits in such a document.
const engineOf = (version) => (version === undefined ? undefined : quoted(version ?? '0.0.0'));

const textIfAny = (text) => (text === '' ? undefined : quoted(text));

// Asks the library for the version of these keys, and maybe one more. The answer is an object of npm_calls.h.
function ask(question, keys, more = '') {
    const { text, defaultTag, avoid, before, known, avoidStrict, includeStaged } = question;
    const { refusal, answer } = call('pick', objectText({
        packument: documentText(question, keys, more),
        wanted: quoted(text),
        tag: textIfAny(defaultTag),
        avoid: textIfAny(avoid),
        before: timeOf(before),
        node: engineOf(known.node),
        npm: engineOf(known.npm),
        avoid_strict: avoidStrict,
        include_staged: includeStaged,
    }));
    return refusal ? { outcome: refusal.name } : answer;
}

// The keys of a few versions in each of the objects.
function few({ versions, staged, restricted }, keys) {
    const among = (object) => keys.filter((key) => own(object, key));
    return { versions: among(versions), staged: among(staged), restricted: among(restricted) };
}

// A version that compares as another does, and of which nothing is said: it is ranked above the other if anything counts
// against that.
const twin = (key) => `${key}${key.includes('+') ? '.' : '+'}twin`;

// The result, if few versions decide it. For a version or a tag one key decides; and for a range the default tag's version
// is picked exactly if nothing counts against it, and so exactly if it is picked beside its twin and has no mark.
function quickAnswer(question) {
    const { text, defaultTag, tags } = question;
    const byDefault = tags.get(defaultTag);
    const byTag = TAG.test(text) ? tags.get(text) : undefined;
    const keys = [...new Set([byDefault, byTag, text])].filter((key) => key);
    if (keys.length === 0) {
        return null;
    }
    const answer = ask(question, few(question, keys), byDefault ? twin(byDefault) : '');
    const { outcome, version, avoided, outside } = answer;
    return outcome === PICKED && !avoided && !outside && keys.includes(version) ? answer : null;
}

// The outcome, the key of the version that is picked, and its marks.
function keyOf(asked) {
    const question = questionOf(asked);
    const { versions, staged, restricted } = question;
    return quickAnswer(question)
        ?? ask(question, { versions: keysOf(versions), staged: keysOf(staged), restricted: keysOf(restricted) });
}

module.exports = { keyOf, PICKED };
