// SPDX-License-Identifier: Apache-2.0
// What the library reads of a document: a shorter document, as JSON. Of a manifest it has `deprecated` and `engines`, and of
// `time` the times of its versions, in the one form that registries write.
'use strict';

const { own } = require('./members.js');

// A text that JSON writes as it is.
const PLAIN = /^[\w .+<>=~^|*-]*$/;
// Half a character, which UTF-8 cannot write.
const HALF = /[\ud800-\udbff](?![\udc00-\udfff])|(?<![\ud800-\udbff])[\udc00-\udfff]/g;

// The form of a time in which registries write it: `2024-03-01T12:00:00.000Z`. Other times, and the last days of a month, which it
// may not have, are written anew.
const PLAIN_TIME = /^\d{4}-(?:0[1-9]|1[0-2])-(?:0[1-9]|1\d|2[0-8])T(?:[01]\d|2[0-3]):[0-5]\d:[0-5]\d\.\d{3}Z$/;
// It is no time, so the library never takes it to be in time.
const NO_TIME = '"-"';
// The first and the last time that the library reads.
const FIRST = Date.parse('0000-01-01T00:00:00.000Z');
const LAST = Date.parse('9999-12-30T22:00:00.999Z');

const wellFormed = (text) => text.replace(HALF, '\ufffd');
const quoted = (text) => (PLAIN.test(text) ? `"${text}"` : JSON.stringify(wellFormed(text)));
// Whether a key can be written, and so whether a version can be picked by it.
const isWritten = (key) => PLAIN.test(key) || wellFormed(key) === key;

// The text of a time in milliseconds.
const textOfTime = (time) => new Date(Math.min(Math.max(time, FIRST), LAST)).toISOString();

// ---- versions ----

// The member of `engines` for an engine of this version: undefined if it is not known, null if the text is no version. No
// range is `true`: as in npm, a text that is no version fits none, and no version fits a range that is no text.
function engineText(name, range, version) {
    if (version === undefined || !range) {
        return '';
    }
    return `"${name}":${version === null || typeof range !== 'string' ? true : quoted(range)}`;
}

function enginesText(engines, { node, npm }) {
    const [one, other] = [engineText('node', engines.node, node), engineText('npm', engines.npm, npm)];
    return one || other ? `"engines":{${one}${one && other && ','}${other}}` : '';
}

function manifestText({ deprecated, engines }, known) {
    const asked = engines ? enginesText(engines, known) : '';
    return deprecated ? `{"deprecated":true${asked && ','}${asked}}` : `{${asked}}`;
}

// The members of `versions`, or of an object like it. What counts as false is no manifest, and is left out; so is a key that
// UTF-8 cannot write.
function versionsText(versions, keys, known) {
    let text = '';
    for (const key of keys) {
        const manifest = own(versions, key);
        if (manifest && isWritten(key)) {
            text += `${text && ','}${quoted(key)}:${manifestText(manifest, known)}`;
        }
    }
    return text;
}

// ---- times ----

// The JSON of the time of a version, or '' if the version is in time in any case.
function timeText(time, before) {
    const instant = Date.parse(time);
    if (Number.isNaN(instant) || Number.isNaN(before)) {
        return NO_TIME;
    }
    if (before === null) {
        return '';
    }
    const isPlain = typeof time === 'string' && PLAIN_TIME.test(time);
    return `"${isPlain ? time : textOfTime(instant)}"`;
}

function timesText(times, keys, before) {
    let text = '';
    for (const key of keys) {
        const time = own(times, key);
        const instant = time && isWritten(key) ? timeText(time, before) : '';
        if (instant) {
            text += `${text && ','}${quoted(key)}:${instant}`;
        }
    }
    return text;
}

// ---- the document ----

const memberText = (name, members) => (members ? `,"${name}":{"versions":{${members}}}` : '');

const tagsText = (tags) => [...tags].map(([tag, key]) => `${quoted(tag)}:${quoted(key)}`).join(',');

// The document that has these keys alone; and maybe a version more, of which nothing is said.
function documentText({ versions, staged, restricted, times, tags, before, known }, keys, more) {
    const stagedText = versionsText(staged, keys.staged, known);
    const restrictedText = versionsText(restricted, keys.restricted, known);
    const all = `${versionsText(versions, keys.versions, known)}`;
    const timed = [keys.versions, keys.staged, keys.restricted, tags.values()];
    const time = times ? timed.map((some) => timesText(times, some, before)).filter(Boolean).join(',') : '';
    return `{"dist-tags":{${tagsText(tags)}},"versions":{${all}${more && (all ? ',' : '')}${more && `${quoted(more)}:{}`}}`
        + `${memberText('stagedVersions', stagedText)}${memberText('policyRestrictions', restrictedText)},"time":{${time}}}`;
}

module.exports = { documentText, quoted, textOfTime, wellFormed };
