// SPDX-License-Identifier: Apache-2.0
// `pick` beside npm's `npm-pick-manifest`, which the installed npm has: on made documents the two return the same manifest,
// and throw the same error, or a rule says why not. PICK_CASES: how many documents, 10,000 if it is not set; PICK_SEED:
// others.
'use strict';

const assert = require('node:assert');
const { spawnSync } = require('node:child_process');
const path = require('node:path');
const { test } = require('node:test');
const { isDeepStrictEqual } = require('node:util');
const pick = require('../pick.js');
const { Documents, large } = require('./documents.js');
const { npmFolder } = require('./npm.js');

const modules = path.join(npmFolder(), 'node_modules');
const npmPick = require(path.join(modules, 'npm-pick-manifest'));
const semver = require(path.join(modules, 'semver'));

const CASES = Number(process.env.PICK_CASES ?? 10000);
const SEED = Number(process.env.PICK_SEED ?? 1);

const root = path.join(__dirname, '..');

// What a call returns or throws. The document may be changed by it, and so it is compared too.
function outcome(call, document, ...rest) {
    const packument = structuredClone(document);
    try {
        const manifest = call(packument, ...rest);
        const own = [packument.versions, packument.stagedVersions?.versions, packument.policyRestrictions?.versions]
            .some((versions) => Object.values(versions ?? {}).includes(manifest));
        return { manifest, own, packument };
    } catch (error) {
        return { thrown: error instanceof TypeError ? 'TypeError' : { message: error.message, ...error } };
    }
}

const keysOf = (packument) => [packument.versions, packument.stagedVersions?.versions, packument.policyRestrictions?.versions]
    .flatMap((versions) => Object.keys(versions ?? {}));

// Where the two differ, as the table of crates/npm_pick/README.md has it. If no version can take the place of one to avoid, npm
// returns an object that has the marks alone.
const RULES = {
    'equal versions': ([packument]) => {
        const keys = keysOf(packument).filter((key) => semver.valid(key, true)).sort(semver.compareLoose);
        return keys.some((key, i) => i > 0 && semver.compareLoose(keys[i - 1], key) === 0);
    },
    'no release beside those to avoid': (question, { manifest }) => manifest?._isSemVerMajor && manifest.version === undefined,
};

test(`${CASES} made documents: npm picks the same`, () => {
    const documents = new Documents(SEED);
    const covered = {};
    let thrown = 0;
    for (let i = 0; i < CASES; i++) {
        const question = documents.question();
        const [npm, here] = [outcome(npmPick, ...question), outcome(pick, ...question)];
        thrown += Number('thrown' in npm);
        if (!isDeepStrictEqual(npm, here)) {
            const rule = Object.keys(RULES).find((name) => RULES[name](question, npm));
            assert.ok(rule, `${JSON.stringify(question)}\nnpm: ${JSON.stringify(npm)}\nhere: ${JSON.stringify(here)}`);
            covered[rule] = (covered[rule] ?? 0) + 1;
        }
    }
    console.log(`# ${CASES} documents, of ${thrown} no version is picked; ${JSON.stringify(covered)}`);
    assert.ok(thrown > CASES / 10 && thrown < CASES * 9 / 10);
});

const versions = {
    '1.2.0': { name: 'one', version: '1.2.0', bin: 'run.js' },
    '1.3.0': { name: 'one', version: '1.3.0' },
    '2.0.0': { name: 'one', version: '2.0.0', deprecated: 'it is old' },
};
const made = (more) => ({ name: 'one', 'dist-tags': { latest: '1.2.0', next: '2.0.0' }, versions: structuredClone(versions), ...more });
const forbidden = { policyRestrictions: { versions: { '2.0.0': versions['2.0.0'] }, message: 'ask Ann' } };
const staged = { stagedVersions: { versions: { '3.0.0': { name: 'one', version: '3.0.0' } } } };
const time = { time: { '1.2.0': '2020-01-01T00:00:00.000Z', '1.3.0': '2021-01-01T00:00:00.000Z', '2.0.0': '2022-01-01T00:00:00.000Z' } };

// A document, the wanted text, options, and the version that is picked or the code of the error.
const ROWS = [
    [made(), '^1', {}, '1.2.0'],
    [made(), '>=1.3 <2', {}, '1.3.0'],
    [made(), '1.3', {}, '1.3.0'],
    [made(), '*', {}, '1.2.0'],
    [made(), '', {}, '1.2.0'],
    [made(), undefined, {}, '1.2.0'],
    [made(), undefined, undefined, '1.2.0'],
    [made(), '=v2.0.0+a', {}, '2.0.0'],
    [made(), 'next', {}, '2.0.0'],
    [made(), '*', { defaultTag: 'next' }, '1.3.0'],
    [made(), '^1', { avoid: '1.2' }, '1.3.0'],
    [made(), '^1', { avoid: '1' }, '1.3.0'],
    [made(), '^1', { avoid: '1', avoidStrict: true }, '2.0.0'],
    [made(), '1.2.0', { avoid: '<1.3', avoidStrict: true }, '1.3.0'],
    [made(), '^1', { avoid: '*', avoidStrict: true }, 'ETARGET'],
    [made(time), '*', { before: '2021-06-01' }, '1.2.0'],
    [made(time), 'next', { before: new Date('2021-06-01') }, '1.2.0'],
    [made(time), '2.0.0', { before: '2021-06-01' }, 'ETARGET'],
    [made(time), '*', { before: '2019-06-01' }, 'ENOVERSIONS'],
    [made(time), 'next', { before: '2019-06-01' }, 'ENOVERSIONS'],
    [made(staged), '^3', {}, 'ETARGET'],
    [made(staged), '^3', { includeStaged: true }, '3.0.0'],
    [made(forbidden), '^2', {}, 'E403'],
    [made(forbidden), '2.0.0', {}, 'E403'],
    [made(), '^9', {}, 'ETARGET'],
    [made(), '9.0.0', {}, 'ETARGET'],
    [made(), 'gone', {}, 'ETARGET'],
    [made(), 'a b', {}, 'EINVALIDTAGNAME'],
    [{ name: 'one', versions: {} }, '*', {}, 'ENOVERSIONS'],
    [{ name: 'one' }, '*', {}, 'ENOVERSIONS'],
    [{}, '1.0.0', {}, 'ETARGET'],
];

test('documents, and what is picked of them', () => {
    for (const [document, wanted, options, expected] of ROWS) {
        const [npm, here] = [outcome(npmPick, document, wanted, options), outcome(pick, document, wanted, options)];
        assert.deepStrictEqual(here, npm, `${wanted} ${JSON.stringify(options)}`);
        assert.strictEqual(here.manifest?.version ?? here.thrown.code, expected, `${wanted} ${JSON.stringify(options)}`);
    }
});

test('the manifest is the one of the document, and a copy if it has marks', () => {
    const document = made();
    assert.strictEqual(pick(document, '^1.3'), document.versions['1.3.0']);
    const marked = pick(document, '2.0.0', { avoid: '2' });
    assert.notStrictEqual(marked, document.versions['2.0.0']);
    assert.strictEqual(marked._shouldAvoid, true);
    assert.strictEqual(document.versions['2.0.0']._shouldAvoid, undefined);
    const outside = pick(document, '^1', { avoid: '1', avoidStrict: true });
    assert.deepStrictEqual([outside._outsideDependencyRange, outside._isSemVerMajor], [true, true]);
});

test('the member bin is changed as npm changes it', () => {
    const documents = new Documents(7);
    for (let i = 0; i < 500; i++) {
        const document = { name: 'a', versions: { '1.0.0': { name: documents.of(['a', '@a/b', '']), version: '1.0.0', bin: documents.bin() } } };
        assert.deepStrictEqual(outcome(pick, document, '1.0.0'), outcome(npmPick, document, '1.0.0'));
    }
});

test('an error has the members of npm\'s', () => {
    const document = made();
    assert.throws(() => pick(document, '^9', { before: '2020-01-01' }), ({ message, ...error }) => {
        assert.ok(message.startsWith('No matching version found for one@^9 with a date before '), message);
        assert.deepStrictEqual(error, {
            code: 'ETARGET', type: 'range', wanted: '^9', versions: ['1.2.0', '1.3.0', '2.0.0'], name: 'one',
            distTags: document['dist-tags'], defaultTag: 'latest',
        });
        return true;
    });
    assert.throws(() => pick(made(forbidden), '^2'), {
        code: 'E403', message: 'Could not download one@^2 due to policy violations:\nask Ann',
    });
    assert.throws(() => pick(document, 'a b'), {
        code: 'EINVALIDTAGNAME',
        message: 'Invalid tag name "a b" of package "one@a b": Tags may not have any characters that encodeURIComponent encodes.',
    });
});

test('locations and aliases are refused, as by npm', () => {
    for (const wanted of ['a/b', './a', '~/a', '/a', 'a.tgz', 'npm:b@1', 'file:a', 'github:a/b', 'https://a.b/c', 'git+ssh://a']) {
        assert.throws(() => pick(made(), wanted), { message: 'Only tag, version, and range are supported' }, wanted);
        assert.throws(() => npmPick(made(), wanted), undefined, wanted);
    }
});

test('arguments of other kinds', () => {
    for (const packument of [null, undefined]) {
        assert.throws(() => pick(packument, '*'), TypeError);
    }
    assert.throws(() => pick(made(), '*', null), TypeError);
    for (const wanted of [7, {}, [], true, Symbol('a'), () => '*']) {
        assert.throws(() => pick(made(), wanted), TypeError);
    }
    for (const wanted of [null, undefined, '', false, 0]) {
        assert.strictEqual(pick(made(), wanted).version, '1.2.0');
    }
    for (const value of [null, 7, 'text', true, [], ['1.0.0'], {}]) {
        for (const name of ['versions', 'dist-tags', 'time', 'stagedVersions', 'policyRestrictions']) {
            outcome(pick, made({ [name]: value }), '^1', { includeStaged: true, before: '2020-01-01' });
        }
        for (const name of ['defaultTag', 'before', 'avoid', 'avoidStrict', 'includeStaged', 'nodeVersion', 'npmVersion']) {
            outcome(pick, made(), '^1', { [name]: value });
        }
        outcome(pick, made({ versions: { '1.0.0': value } }), '^1');
        outcome(pick, made({ versions: { '1.0.0': value } }), '1.0.0');
    }
    for (const packument of [7, 'text', true, [], () => 1]) {
        assert.throws(() => pick(packument, '^1'), { code: 'ENOVERSIONS' });
    }
});

test('texts of every kind', () => {
    for (const text of ['"', '\\', '\ud800', '\udc00x', '\0', 'ü', '😀', '\u2028', ' '.repeat(1000), 'a'.repeat(100000), '1.'.repeat(9999)]) {
        outcome(pick, made(), text);
        outcome(pick, made({ 'dist-tags': { [text]: '1.2.0', latest: text } }), text || '*');
        outcome(pick, made({ versions: { [text]: { version: text }, '1.0.0': { version: '1.0.0', engines: { node: text } } } }), '^1');
        for (const name of ['defaultTag', 'before', 'avoid', 'nodeVersion', 'npmVersion']) {
            outcome(pick, made(time), '^1', { [name]: text });
        }
    }
    const long = `1.0.0-${'a'.repeat(1000)}`;
    assert.strictEqual(pick(made({ 'dist-tags': { next: long }, versions: { [long]: { version: long } } }), 'next').version, long);
});

// Each is 24 characters or another form that `Date.parse` reads.
const TIMES = ['(xxxxxxxxxT")1 Jan 2000Z', '(xxxxxxxxxT\\)1 Jan 2000Z', '(xxxxxxxxxT\ud800)1 Jan 2000Z', '(xxxxxxxxxT\u2028)1 Jan 2000Z',
    '(xxxxxxxxxT\n)1 Jan 2000Z', '2020-02-30T00:00:00.000Z', '2020-02-29T24:00:00.000Z', '2020-02-31T23:59:59.999Z',
    '2020-02-29T23:59:60.000Z', '2020-13-01T00:00:00.000Z', '2020-00-10T00:00:00.000Z', '2020-02-29T12:00:00.000+', '1 Mar 2020',
    '2020-03-01', '2020-03-01T00:00:00Z', '2020-03-01T01:00:00+01:00', 1577836800000, true, ['2020-03-01T00:00:00.000Z'], '"', 'x'];

test('times of every form: npm picks the same', () => {
    for (const one of TIMES) {
        const document = made({ time: { '1.2.0': one, '1.3.0': '2020-03-01T00:00:00.000Z', '2.0.0': '2019-01-01T00:00:00.000Z' } });
        for (const before of ['1999-12-31', '2000-01-03', '2020-02-29', '2020-03-01', '2020-03-02T12:00:00Z', new Date(1583020800000)]) {
            for (const wanted of ['^1', '1.2.0', '*', '>=1.2', 'latest']) {
                assert.deepStrictEqual(outcome(pick, document, wanted, { before }), outcome(npmPick, document, wanted, { before }),
                    `${JSON.stringify(one)} ${wanted} ${before}`);
            }
        }
    }
});

test('half a character in a document: npm picks the same', () => {
    const half = '\ud800';
    const documents = [
        made({ time: { [half]: half, '1.2.0': half } }), made({ 'dist-tags': { latest: half } }),
        made({ 'dist-tags': { latest: '1.2.0', next: `1.3.0-${half}` } }),
        made({ versions: { ...versions, '1.4.0': { version: '1.4.0', engines: { node: half } } } }),
        made({ versions: { ...versions, [half]: { version: half } } }),
        made({ versions: { ...versions, '1.4.0': { version: '1.4.0', deprecated: half, engines: { npm: `>=1 ${half}` } } } }),
        made({ versions: { ...versions, '\\ud800': { version: '1.0.0' } }, 'dist-tags': { next: '\\ud800', latest: '1.2.0' } }),
    ];
    for (const document of documents) {
        for (const wanted of ['^1', '*', '1.4.0', 'latest', 'next', '>=1.3']) {
            for (const options of [{}, { before: '2020-01-01', npmVersion: '9.0.0' }]) {
                assert.deepStrictEqual(outcome(pick, document, wanted, options), outcome(npmPick, document, wanted, options),
                    `${JSON.stringify(document)} ${wanted} ${JSON.stringify(options)}`);
            }
        }
    }
});

test('large documents: npm picks the same', () => {
    const document = large(400);
    for (const wanted of ['^1', '^2', '^3', '*', '1.x', '>=1.5 <3', 'next', '^9', '2.20.1', '~1.3']) {
        for (const options of [{}, { before: '2015-01-10' }, { avoid: '>=2' }, { avoid: '<2.5', avoidStrict: true }, { nodeVersion: '15.0.0' }]) {
            assert.deepStrictEqual(outcome(pick, document, wanted, options), outcome(npmPick, document, wanted, options), wanted);
        }
    }
});

// The modules that a process has loaded after a piece of JavaScript.
function loaded(text) {
    const { stdout } = spawnSync(process.execPath, ['-e', `${text}; console.log(JSON.stringify(Object.keys(require.cache)
        .filter((file) => file.includes('/modules/read/')).map((file) => file.split('/').at(-1)).sort()))`], { cwd: root, encoding: 'utf8' });
    return JSON.parse(stdout);
}

test('the package alone does not load the module of pick', () => {
    assert.deepStrictEqual(loaded('require(".")'), ['node_semver.js']);
    assert.deepStrictEqual(loaded('require("./pick.js")'), ['node_semver.js', 'npm_calls.js']);
});
