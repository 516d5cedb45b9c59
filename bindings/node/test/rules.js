// SPDX-License-Identifier: Apache-2.0
// Where this package differs from npm's `semver`, as docs/DIFFERENCES.md has it. Each rule has a predicate of the texts
// that it is about: `version` of a version text, `range` of a range text as npm trims it, and of its options. It is called
// with the smallest texts that differ, so it describes those and no more. `calls` are the functions that a rule
// is about, where it is not about all. `example` is a call, and `why` the reason, for readers of this file.
'use strict';

const { takes } = require('./calls.js');

// Whether a text has a number that JavaScript has not, or that npm takes for none.
const hasLarge = (text) => (text.match(/\d{16,}/g) ?? []).some((digits) => BigInt(digits) >= 9007199254740991n);

const has = (...expressions) => (text) => expressions.some((expression) => expression.test(text));
const hasLoosely = (...expressions) => (text, isLoose) => isLoose && has(...expressions)(text);

// The functions that show a build.
const BUILDS = ['compareBuild', 'SemVer.compareBuild', 'sort', 'rsort'];

// A word that is any version.
const STAR = /(^|[\s<>=~^v|])([xX*]|>=\s*0)/;

// Whether one of several alternatives is any version, or empty.
const hasAny = (text) => text.includes('||') && text.split('||').some((one) => one.trim() === '' || STAR.test(one));

// A partial that begins with 0.0.0.
const ZERO = /(^|[\s>=~^v|])0(\.[0xX*]){0,2}(\.\d+)?(?![\w.-])/;

const rules = [
    {
        name: 'large numbers and long words',
        example: ['validRange', '^9007199254740991'],
        npm: null,
        here: '>=9007199254740991.0.0 <9007199254740992.0.0-0',
        why: 'npm refuses an end that it makes itself, ignores a number after an x and, in loose mode, a word above 250 '
            + 'characters, compares digits of prereleases as doubles, and cuts an identifier above 250 in `coerce` with '
            + '`includePrerelease`',
        version: hasLarge,
        range: (text) => hasLarge(text) || /[^\s|]{250,}/.test(text),
    },
    {
        name: 'zeros that lead in a build',
        example: ['compareBuild', '1.0.0+01.b', '1.0.0+1.a'],
        npm: 0,
        here: 1,
        why: 'an identifier of digits is a number; `coerce` with `includePrerelease` drops the zeros',
        calls: [...BUILDS, 'coerce'],
        version: has(/\+.*(?<![0-9A-Za-z-])0\d+(?![0-9A-Za-z-])/),
    },
    {
        name: 'marks before a partial',
        example: ['validRange', 'vv1.2.3'],
        npm: null,
        here: '1.2.3',
        why: 'marks may precede any partial, without blanks: `=1 - 2` is a range here alone, `v 1 - 2` in npm alone',
        range: has(/v[v=\s]/, /=\s*=/, /(^|[\s|])=\s*\S+\s+-\s/, /\s-\s+=/),
    },
    {
        name: 'two marks at the end of a word',
        example: ['validRange', '1.2.3-v= 1', true],
        npm: null,
        here: '>=1.0.0 <2.0.0-0',
        why: '`v=` is two marks, after which no partial is joined; npm joins it where the `v` ends a prerelease or a build',
        range: hasLoosely(/[^\s|]v=(\s|$)/),
    },
    {
        name: 'a star beside other characters',
        example: ['validRange', '1.2.3*'],
        npm: '1.2.3',
        here: null,
        why: 'npm takes a star out of any word, with a `<` or `>` before it',
        range: has(/[^\s|.<>=~^v][<>]?=?\s*\*|\*[^\s|.]/, /\*\.?[^\s|.]/),
    },
    {
        name: 'what npm takes for a prerelease',
        example: ['validRange', '1.2.3-', true],
        npm: '1.2.3--',
        here: null,
        why: 'in loose mode npm takes a hyphen alone, and the last digit of a patch: `1.2.34.5` is `1.2.3-4.5`',
        range: hasLoosely(/-($|[\s|.+])/, /\.\d\d+\./),
    },
    {
        name: 'a build before a hyphen',
        example: ['validRange', '1.2.3+5 - 2', { includePrerelease: true }],
        npm: '>=1.2.3 <3.0.0-0',
        here: '>=1.2.3-0 <3.0.0-0',
        why: 'npm adds `-0` to the text, and so to the build',
        range: (text, isLoose, { includePrerelease }) => includePrerelease && /\+[^\s|]*\s+-\s/.test(text),
    },
    {
        name: 'zeros before a zero',
        example: ['validRange', '^00.2.3', true],
        npm: '>=0.2.3 <1.0.0-0',
        here: '>=0.2.3 <0.3.0-0',
        why: 'npm compares the text `00` with `0`',
        range: hasLoosely(/\^[v=\s]*(00|0\.00)/),
    },
    {
        name: 'any version beside others',
        example: ['satisfies', '1.2.3-b', '^1.2.3-a || *'],
        npm: false,
        here: true,
        why: 'npm drops the alternatives beside `*`, and in loose mode a `*` between ignored words; to npm `>=0.0.0` is no '
            + 'end, which shows beside a prerelease of 0.0.0',
        range: (text, isLoose) => hasAny(text) || (isLoose && STAR.test(text))
            || (ZERO.test(text) && text.includes('0.0.0-')),
    },
];

const isLoose = (options) => options === true || options?.loose === true;

// Whether a rule of ranges covers a range text, as npm trims it, that is read with these options.
const coversRange = ({ range }, text, options) => range(text, isLoose(options), options ?? {});

const trimmed = (range) => range.trim().split(/\s+/).join(' ');

// The rules that cover a call with the smallest texts: for one of its versions or of its ranges, or for its results.
function covering(name, texts) {
    const versions = takes[name].flatMap((word) => (['v', 'w', 'list'].includes(word) ? texts[word] : []));
    const ranges = takes[name].flatMap((word) => (['r', 's'].includes(word) ? [trimmed(texts[word])] : []));
    return rules.filter((rule) => (!rule.calls || rule.calls.includes(name))
        && ((rule.version && versions.some(rule.version))
        || (rule.range && ranges.some((text) => coversRange(rule, text, texts.o)))));
}

module.exports = { rules, coversRange, covering };
