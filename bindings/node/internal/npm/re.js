// SPDX-License-Identifier: Apache-2.0
// The regular expressions that npm's `semver` exports, by their names, for packages that use them. This package reads
// nothing with them: the library reads versions and ranges.
'use strict';

const { MAX_LENGTH, MAX_SAFE_BUILD_LENGTH, MAX_SAFE_COMPONENT_LENGTH } = require('./constants.js');

// ---- parts of texts ----

const CHARACTER = '[a-zA-Z0-9-]';
const WORD = `\\d*[a-zA-Z-]${CHARACTER}*`;
const MARKS = '[v=\\s]*';
const OPERATOR = '((?:<|>)?=?)';
const BUILD_WORD = `${CHARACTER}+`;

const list = (identifier) => `(${identifier}(?:\\.${identifier})*)`;
const whole = (text) => `^${text}$`;
const BUILD = `(?:\\+${list(BUILD_WORD)})`;

// What the strict and the loose form differ in: numbers, and whether a prerelease begins with a hyphen.
function formOf(number, hyphen) {
    const identifier = `(?:${number}|${WORD})`;
    const prerelease = `(?:${hyphen}${list(identifier)})`;
    const main = `(${number})\\.(${number})\\.(${number})`;
    const component = `${number}|x|X|\\*`;
    const partial = `${MARKS}(${component})(?:\\.(${component})(?:\\.(${component})(?:${prerelease})?${BUILD}?)?)?`;
    return { number, identifier, prerelease, main, component, partial };
}

const strict = formOf('0|[1-9]\\d*', '-');
const loose = formOf('\\d+', '-?');
const FULL = `v?${strict.main}${strict.prerelease}?${BUILD}?`;
const LOOSE = `${MARKS}${loose.main}${loose.prerelease}?${BUILD}?`;

const hyphenRange = ({ partial }) => `^\\s*(${partial})\\s+-\\s+(${partial})\\s*$`;
const comparator = (version) => `^${OPERATOR}\\s*(${version})$|^$`;

const DIGITS = `(\\d{1,${MAX_SAFE_COMPONENT_LENGTH}})`;
const COERCED = `(^|[^\\d])${DIGITS}(?:\\.${DIGITS})?(?:\\.${DIGITS})?`;
const COERCED_END = '(?:$|[^\\d])';
const COERCED_FULL = `${COERCED}(?:${strict.prerelease})?(?:${BUILD})?${COERCED_END}`;
const TILDE = '(?:~>?)';
const CARET = '(?:\\^)';

// ---- the expressions ----

// Each has its number by its place.
const SOURCES = {
    NUMERICIDENTIFIER: strict.number,
    NUMERICIDENTIFIERLOOSE: loose.number,
    NONNUMERICIDENTIFIER: WORD,
    MAINVERSION: strict.main,
    MAINVERSIONLOOSE: loose.main,
    PRERELEASEIDENTIFIER: strict.identifier,
    PRERELEASEIDENTIFIERLOOSE: loose.identifier,
    PRERELEASE: strict.prerelease,
    PRERELEASELOOSE: loose.prerelease,
    BUILDIDENTIFIER: BUILD_WORD,
    BUILD,
    FULLPLAIN: FULL,
    FULL: whole(FULL),
    LOOSEPLAIN: LOOSE,
    LOOSE: whole(LOOSE),
    GTLT: OPERATOR,
    XRANGEIDENTIFIERLOOSE: loose.component,
    XRANGEIDENTIFIER: strict.component,
    XRANGEPLAIN: strict.partial,
    XRANGEPLAINLOOSE: loose.partial,
    XRANGE: whole(`${OPERATOR}\\s*${strict.partial}`),
    XRANGELOOSE: whole(`${OPERATOR}\\s*${loose.partial}`),
    COERCEPLAIN: COERCED,
    COERCE: COERCED + COERCED_END,
    COERCEFULL: COERCED_FULL,
    COERCERTL: COERCED + COERCED_END,
    COERCERTLFULL: COERCED_FULL,
    LONETILDE: TILDE,
    TILDETRIM: `(\\s*)${TILDE}\\s+`,
    TILDE: whole(TILDE + strict.partial),
    TILDELOOSE: whole(TILDE + loose.partial),
    LONECARET: CARET,
    CARETTRIM: `(\\s*)${CARET}\\s+`,
    CARET: whole(CARET + strict.partial),
    CARETLOOSE: whole(CARET + loose.partial),
    COMPARATORLOOSE: comparator(LOOSE),
    COMPARATOR: comparator(FULL),
    COMPARATORTRIM: `(\\s*)${OPERATOR}\\s*(${LOOSE}|${strict.partial})`,
    HYPHENRANGE: hyphenRange(strict),
    HYPHENRANGELOOSE: hyphenRange(loose),
    STAR: '(<|>)?=?\\s*\\*',
    GTE0: '^\\s*>=\\s*0\\.0\\.0\\s*$',
    GTE0PRE: '^\\s*>=\\s*0\\.0\\.0-0\\s*$',
};

// The expressions that are applied again and again to one text.
const GLOBAL = new Set(['COERCERTL', 'COERCERTLFULL', 'TILDETRIM', 'CARETTRIM', 'COMPARATORTRIM']);

// The source with a limit on each repeated part, so that a long text takes a short time.
const LIMITS = [['\\s', 1], ['\\d', MAX_LENGTH], [CHARACTER, MAX_SAFE_BUILD_LENGTH]];
const limited = (source) => LIMITS.reduce((text, [part, most]) => text
    .replaceAll(`${part}*`, () => `${part}{0,${most}}`).replaceAll(`${part}+`, () => `${part}{1,${most}}`), source);

const names = Object.keys(SOURCES);
const src = Object.values(SOURCES);
const expressions = (sources) => sources.map((source, i) => new RegExp(source, GLOBAL.has(names[i]) ? 'g' : ''));

module.exports = {
    re: expressions(src),
    safeRe: expressions(src.map(limited)),
    src,
    t: Object.fromEntries(names.map((name, i) => [name, i])),
    tildeTrimReplace: '$1~',
    caretTrimReplace: '$1^',
    comparatorTrimReplace: '$1$2$3',
};
