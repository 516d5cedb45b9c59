// SPDX-License-Identifier: Apache-2.0
// The comparators of a range text, in the order of the text, as npm prints them. The text is divided into words here,
// and the library reads each word: its set has the ends that the comparators of the word have. They are made when they are
// first asked for.
'use strict';

const native = require('./native.js');
const { newList, add } = require('./builtins.js');
const { ANY, comparatorOf } = require('./comparator.js');
const { textKey } = require('./kept.js');
const { INCLUDES_PRERELEASES, IS_LOOSE } = require('./options.js');
const { semVerOfKey } = require('./semver.js');
const { withoutBuild } = require('./texts.js');

// The kinds of cuts, by their numbers in node_semver.h.
const [START, BEFORE, AFTER, END] = [0, 1, 2, 3];

// The comparators of a set, of the kinds of its two cuts and the keys of their versions.
function comparatorsBetween(lower, from, upper, to, options) {
    if (lower === BEFORE && upper === AFTER && typeof from === 'string' && withoutBuild(from) === withoutBuild(to)) {
        return [comparatorOf('', semVerOfKey(from, options.loose), options)];
    }
    const least = lower === BEFORE ? '>=' : lower === AFTER ? '>' : '';
    const most = upper === BEFORE ? '<' : upper === AFTER ? '<=' : '';
    const one = least === '' ? undefined : comparatorOf(least, semVerOfKey(from, options.loose), options);
    const other = most === '' ? undefined : comparatorOf(most, semVerOfKey(to, options.loose), options);
    if (one !== undefined && other !== undefined) {
        return [one, other];
    }
    return [one ?? other ?? comparatorOf('', ANY, options)];
}

// The same of the set whose cuts stand in a list from a place on.
const comparatorsOf = (cuts, at, options) => comparatorsBetween(cuts[at], cuts[at + 1], cuts[at + 2], cuts[at + 3], options);

// What a word has before its three numbers, these numbers, and what it has after them.
const PARTS = /^([<>=~^v ]*)([\dxX*]+)(?:\.([\dxX*]+)(?:\.([\dxX*]+)(.*))?)?/s;

const isX = (number) => number === undefined || /^[xX*]/.test(number);

// npm leaves out a comparator of which the text is `>=0.0.0`, or `>=0.0.0-0` with prereleases: so it goes by the text of the
// word whose comparator has this value. Where a word has three numbers and neither `~` nor `^`, npm keeps the text as it is
// written, with a `v`, zeros or a build; otherwise npm writes it, with the numbers before an x as they are written.
function isLeftOut(word, least) {
    const [, before = '', major, minor, patch, after] = PARTS.exec(word) ?? [];
    const [isMajor, isMinor] = [isX(minor), isX(patch)];
    if (!isMajor && !isMinor && !/[~^]/.test(before)) {
        const [lower, upper] = word.split(' - ');
        const text = upper === undefined ? lower.replace(/^(?:>= |> =)/, '>=') : `>=${lower}`;
        return text === least || `${text}-0` === least;
    }
    return major === '0' && (isMajor || (minor === '0' && (isMinor || (patch === '0' && !/^-?00/.test(after)))));
}

// Whether the library reads a text as a range, and as a partial.
const isRead = (text, flags) => native.refusedAt(textKey(text, flags)) === null;
const isPartial = (text, flags) => isRead(`^${text}`, flags);

// Whether the library drops the blank between two texts: after an operator, by what follows it.
function isJoined(text, next) {
    if (/[~^]$/.test(text)) {
        return true;
    }
    if (text.endsWith('~>')) {
        return !/^[v=]*$/.test(next);
    }
    return /(?:[<>]|(?<![v=])=)$/.test(text) && /^[v=]*[\dxX*]/.test(next);
}

// The comparators of a hyphen range in strict form, by the two cuts of its one set; `undefined` for another alternative, and where the
// ends do not lie so. Where all words have to be comparators, the library reads one with a hyphen between two as nothing else.
function comparatorsOfHyphen(alternative, cuts, flags, options) {
    if (flags & IS_LOOSE || cuts.length !== 4 || !/^\S+ - \S+$/.test(alternative)) {
        return undefined;
    }
    const { 0: lower, 1: from, 2: upper, 3: to } = cuts;
    const areEnds = (lower === BEFORE || lower === AFTER) && (upper === BEFORE || upper === AFTER);
    return areEnds ? [...comparatorsBetween(lower, from, END, null, options), ...comparatorsBetween(START, null, upper, to, options)]
        : undefined;
}

// The words of an alternative, as the library divides it. The two sides of a hyphen range are words, each with a star on
// its other side.
function wordsOf(alternative, flags) {
    const texts = alternative.split(/\s+/);
    if (texts.length === 3 && texts[1] === '-' && isPartial(texts[0], flags) && isPartial(texts[2], flags)) {
        return [`${texts[0]} - *`, `* - ${texts[2]}`];
    }
    const words = newList();
    add(words, texts[0]);
    for (let i = 1; i < texts.length; i++) {
        if (isJoined(texts[i - 1], texts[i])) {
            words[words.length - 1] += ` ${texts[i]}`;
        } else {
            add(words, texts[i]);
        }
    }
    return Array.from(words);
}

// The comparators of an alternative; none if the library refuses it.
function comparatorsOfText(alternative, flags, options) {
    const cuts = native.sets(textKey(alternative, flags));
    if (cuts === null) {
        return [];
    }
    const least = flags & INCLUDES_PRERELEASES ? '>=0.0.0-0' : '>=0.0.0';
    const ends = comparatorsOfHyphen(alternative, cuts, flags, options);
    if (ends !== undefined && ends[0].value !== least) {
        return ends;
    }
    const found = new Map();
    for (const word of wordsOf(alternative, flags)) {
        for (const comparator of comparatorsOfWord(word, flags, options)) {
            if (comparator.value === '<0.0.0-0') {
                return [comparator];
            }
            const isAny = comparator.value === least && isLeftOut(word, least);
            const one = isAny ? comparatorOf('', ANY, options) : comparator;
            found.set(one.value, one);
        }
    }
    if (found.size > 1) {
        found.delete('');
    }
    return [...found.values()];
}

function comparatorsOfWord(word, flags, options) {
    const cuts = native.sets(textKey(word, flags));
    return cuts === null ? [] : comparatorsOf(cuts, 0, options);
}

// The comparators of each alternative. Alternatives that nothing satisfies are left out beside others, and all others
// beside one that is `*`.
function readSet(text, flags, options) {
    const all = text.split('||').map((alternative) => readAlternative(alternative.trim(), flags, options))
        .filter((comparators) => comparators.length > 0);
    const some = all.filter(([first]) => first.value !== '<0.0.0-0');
    const any = all.length > 1 ? some.find((comparators) => comparators.length === 1 && comparators[0].value === '')
        : undefined;
    return any !== undefined ? [any] : some.length > 0 ? some : all.slice(0, 1);
}

// The text of each alternative. npm reads alternatives of the same text once, so it finds that they are the same.
const alternatives = new WeakMap();
const isSameText = (one, other) => one === other
    || (alternatives.has(one) && alternatives.get(one) === alternatives.get(other));

// The alternatives that were read last, as properties: see kept.js. npm keeps them too. A long one has many comparators, so it
// is not kept.
const MOST_KEPT = 500;
const LONGEST_KEPT = 128;
let kept = Object.create(null);
let count = 0;

// The comparators of an alternative, which are kept; none if the library refuses it.
function readAlternative(alternative, flags, options) {
    const key = textKey(alternative, flags);
    if (kept[key] !== undefined) {
        return kept[key];
    }
    const comparators = comparatorsOfText(alternative, flags, options);
    alternatives.set(comparators, key);
    if (alternative.length <= LONGEST_KEPT) {
        if (count === MOST_KEPT) {
            kept = Object.create(null);
            count = 0;
        }
        kept[key] = comparators;
        count++;
    }
    return comparators;
}

// The comparators of the sets of a range that was made of others.
function setOf(key, options) {
    const cuts = native.sets(key);
    return Array.from({ length: cuts.length / 4 }, (_, i) => comparatorsOf(cuts, 4 * i, options));
}

// ---- what npm says of a text that is refused ----

// Repeated parts have limits, as in npm, so that the time is linear in the text.
const MARKS = '[v=\\s]*';
const DIGITS = '\\d{1,256}';
const NUMBER = `(?:${DIGITS}|[xX*])`;
const IDENTIFIER = `(?:${DIGITS}|\\d{0,256}[a-zA-Z-][a-zA-Z0-9-]{0,250})`;
const BUILD = '[a-zA-Z0-9-]{1,250}';
const MORE = `(?:-?${IDENTIFIER}(?:\\.${IDENTIFIER})*)?(?:\\+${BUILD}(?:\\.${BUILD})*)?`;
const PARTIAL = `${MARKS}${NUMBER}(?:\\.${NUMBER}(?:\\.${NUMBER}${MORE})?)?`;

// Blanks between an operator and its partial, which npm takes out before it divides a text. Marks are looked at
// from the first of them alone: if no number follows from there, none follows from a later one.
const OPERATOR = new RegExp(`(\\s?)(?:([<>]=?)|(?<![v=]\\s?)(=?))\\s?(${MARKS}${DIGITS}\\.${DIGITS}\\.${DIGITS}${MORE}|${PARTIAL})`,
    'g');
const TILDE = /~>?\s+/g;
const CARET = /\^\s+/g;
const glued = (text) => text.replace(OPERATOR, '$1$2$3$4').replace(TILDE, '~').replace(CARET, '^');

// What npm takes out of a word before it is refused.
const STAR = /[<>]?=?\s*\*/;

// The first word of a text that is refused.
function refusedWord(text, flags) {
    const alternative = text.split('||').map((one) => one.trim())
        .find((one) => !isRead(one, flags));
    return glued(alternative ?? text).split(' ').find((word) => !isRead(word, flags));
}

// What npm says of a range text that is refused.
function refusal(text, flags) {
    const word = flags & IS_LOOSE ? undefined : refusedWord(text, flags);
    return word === undefined ? `Invalid SemVer Range: ${text}` : `Invalid comparator: ${word.replace(STAR, '')}`;
}

module.exports = { readAlternative, readSet, setOf, refusal, isSameText };
