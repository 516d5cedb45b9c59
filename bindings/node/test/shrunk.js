// SPDX-License-Identifier: Apache-2.0
// Makes the texts of a call smaller while it still returns one thing here and another in npm's `semver`. What is left
// is what the two differ about. A step takes out a whole alternative, word, prerelease, build or prefix, or most of a
// number. The rest stays as it was written, so that a step makes no new difference.
'use strict';

const here = require('..');
const { npm, result, takes } = require('./calls.js');

const without = (list, place) => list.filter((_, i) => i !== place);

// The text with a shorter number, and without an identifier, a prerelease, a build.
const withoutExtras = (text) => [
    text.replace(/\d{2,}/, (digits) => digits[0]),
    text.replace(/\d{2,}/, (digits) => digits.at(-1)),
    text.replace(/\+[0-9A-Za-z.-]+/, ''),
    text.replace(/(?<=\d)-[0-9A-Za-z-]+(\.[0-9A-Za-z-]+)*(?=$|[+ |])/, ''),
    text.replace(/(?<=[-+][0-9A-Za-z-]+(?:\.[0-9A-Za-z-]+)*)\.[0-9A-Za-z-]+/, ''),
];

const smallerVersions = (text) => [
    '1.2.3', text.trim(), ...(/^[\s=vV]/.test(text) ? [text.slice(1)] : []), ...withoutExtras(text),
].filter((smaller) => smaller.length < text.length);

function smallerAlternatives(alternative) {
    const words = alternative.split(' ').filter(Boolean);
    const fewer = words.length < 2 ? [] : words.map((_, i) => without(words, i).join(' '));
    return [...fewer, ...words.flatMap((word, i) => withoutExtras(word).filter((smaller) => smaller !== word)
        .map((smaller) => [...words.slice(0, i), smaller, ...words.slice(i + 1)].join(' ')))];
}

const tidy = (text) => text.trim().split(/\s+/).join(' ');

function smallerRanges(text) {
    const alternatives = text.split('||');
    const fewer = alternatives.length < 2 ? [] : alternatives.map((_, i) => without(alternatives, i).join('||'));
    return [tidy(text), ...fewer, ...alternatives.flatMap((alternative, i) => smallerAlternatives(alternative)
        .map((smaller) => [...alternatives.slice(0, i), smaller, ...alternatives.slice(i + 1)].join('||')))]
        .filter((smaller) => smaller.length < text.length);
}

const smallerLists = (list) => [
    ...list.map((_, i) => without(list, i)),
    ...list.flatMap((text, i) => smallerVersions(text).map((smaller) => list.with?.(i, smaller)
        ?? [...list.slice(0, i), smaller, ...list.slice(i + 1)])),
];

const smaller = {
    v: smallerVersions, w: smallerVersions, r: smallerRanges, s: smallerRanges, list: smallerLists, operator: () => [],
    o: (options) => (options === undefined ? [] : [undefined, ...Object.keys(options).map((name) => ({ [name]: true }))]
        .filter((fewer) => JSON.stringify(fewer) !== JSON.stringify(options))),
    release: () => [], identifier: () => [], base: () => [],
    again: (bumps) => bumps.map((_, i) => without(bumps, i)).filter((fewer) => fewer.length > 0),
};

const differs = (name, texts) => result(name, npm, texts) !== result(name, here, texts);

// The first smaller texts about which the call differs too.
function step(name, texts) {
    for (const word of takes[name]) {
        for (const less of smaller[word](texts[word])) {
            const fewer = { ...texts, [word]: less };
            if (differs(name, fewer)) {
                return fewer;
            }
        }
    }
    return undefined;
}

// The texts that the call takes, as small as they get. `found` are the smallest texts of other calls on the same texts:
// where this call differs about one of them too, it is taken.
function shrunk(name, texts, found) {
    for (const other of found) {
        if (takes[name].every((word) => word in other) && differs(name, other)) {
            return other;
        }
    }
    let small = Object.fromEntries(takes[name].map((word) => [word, texts[word]]));
    for (let next = step(name, small); next !== undefined; next = step(name, small)) {
        small = next;
    }
    return small;
}

module.exports = { shrunk };
