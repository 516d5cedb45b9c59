// SPDX-License-Identifier: Apache-2.0
// `resolve`: the rows of resolve-rows.json, which the package for Python has too, and arguments of every kind.
'use strict';

const assert = require('node:assert');
const { spawnSync } = require('node:child_process');
const path = require('node:path');
const { test } = require('node:test');
const resolve = require('../resolve.js');
const { react, tree, rows } = require('./resolve-rows.json');

const root = path.join(__dirname, '..');

// The code of an error, and how its message begins.
const ERRORS = {
    manifest: ['EINVALIDMANIFEST', 'the manifest '],
    documents: ['EINVALIDDOCUMENTS', 'the documents '],
    before: ['EINVALIDOPTION', 'before '],
    omit: ['EINVALIDOPTION', 'omit '],
    steps: ['EINVALIDOPTION', 'steps '],
    node: ['EINVALIDOPTION', 'nodeVersion is no version'],
    'node type': ['EINVALIDOPTION', 'nodeVersion must be a string'],
    'flat type': ['EINVALIDOPTION', 'flat must be '],
    'lowest type': ['EINVALIDOPTION', 'lowest must be '],
    'lockfile type': ['EINVALIDOPTION', 'lockfile must be '],
    lockfile: ['EINVALIDOPTION', 'lockfile takes '],
    lock: ['EINVALIDLOCK', 'the lock file'],
};

// The code of the error of a row, and how its message begins. That of a lock file says where the fault is.
function errorOf(error) {
    const name = error in ERRORS ? error : 'lock';
    const [code, text] = ERRORS[name];
    return [code, name === 'lock' ? text + error.slice('lock'.length) : text];
}

// An answer as a row has it.
function told({ outcome, packages, lockfile, culprits, overrides }) {
    switch (outcome) {
    case 'selected':
        return lockfile ? { lockfile } : { packages: packages.map((one) => [one.name, one.package, one.version]) };
    case 'none':
        return { culprits: culprits?.map((one) => [one.name, one.spec, one.needed, one.document, one.would_fit]) };
    case 'unread':
        return { unread: overrides };
    default:
        return { [outcome]: true };
    }
}

for (const { name, manifest, documents, options = {}, error, ...expected } of rows) {
    test(name, () => {
        const { tag, node, ...others } = options;
        const given = { react, tree }[documents] ?? documents;
        const call = () => resolve(manifest, given, { defaultTag: tag, nodeVersion: node, ...others });
        if (error) {
            const [code, text] = errorOf(error);
            assert.throws(call, (thrown) => thrown.code === code && thrown.message.startsWith(text));
        } else {
            const { lockfile } = expected;
            assert.deepStrictEqual(told(call()), lockfile ? { lockfile: `${JSON.stringify(lockfile, null, 2)}\n` } : expected);
        }
    });
}

const COUNT = 1000;
const many = Object.fromEntries(Array.from({ length: COUNT }, (_, i) => [`p${i}`, {
    versions: {
        '1.0.0': { peerDependencies: { [`p${(i + 1) % COUNT}`]: '^1' } },
        '1.1.0': { peerDependencies: { [`p${(i + 1) % COUNT}`]: '^1', p0: '1.0.0' } },
    },
}]));

test('a thousand packages, of which each asks for the next', () => {
    const { packages } = resolve({ dependencies: { p0: '1' } }, many);
    assert.deepStrictEqual(packages.map((one) => one.name), Object.keys(many));
    assert.strictEqual(packages[0].version, '1.0.0');
});

test('an answer that is longer than most', () => {
    const name = 'n'.repeat(600_000);
    const { packages } = resolve({ dependencies: { [name]: '*' } }, { [name]: { versions: { '1.0.0': {} } } });
    assert.deepStrictEqual(packages, [{ name, package: name, version: '1.0.0' }]);
});

const asks = { dependencies: { react: '*' } };
const versionOf = (options) => resolve(asks, react, options).packages[0].version;

test('options of every kind', () => {
    for (const options of [undefined, {}, { before: null, omit: null, defaultTag: null }, { before: '', omit: [] }]) {
        assert.strictEqual(versionOf(options), '18.3.0');
    }
    for (const before of ['2022-03-01', new Date('2022-03-01'), Date.parse('2022-03-01'), '2022-03-01T02:00:00+02:00']) {
        assert.strictEqual(versionOf({ before }), '18.0.0');
    }
    assert.strictEqual(versionOf({ before: 8.64e15 }), '18.3.0');
    assert.strictEqual(resolve(asks, react, { before: -8.64e15 }).outcome, 'none');
    assert.strictEqual(versionOf({ steps: Number.MAX_SAFE_INTEGER }), '18.3.0');
    for (const steps of [NaN, Infinity, '7', 7n, null, {}, 2 ** 53]) {
        assert.throws(() => versionOf({ steps }), { code: 'EINVALIDOPTION', message: 'steps must be a whole number' });
    }
    for (const omit of ['all', 'Dev', ['dev', 'all'], 7, {}, true]) {
        assert.throws(() => versionOf({ omit }), { code: 'EINVALIDOPTION', message: 'omit takes dev, optional, peer' });
    }
    for (const before of ['yesterday', NaN, {}, 8.65e15]) {
        assert.throws(() => versionOf({ before }), { code: 'EINVALIDOPTION', message: 'before is no time' });
    }
    assert.throws(() => resolve(asks, react, null), TypeError);
});

test('options that are true or false, a version of Node and a lock file, of every kind', () => {
    for (const options of [{ flat: null, lowest: undefined, lockfile: null }, { nodeVersion: null, lock: null }, { nodeVersion: '', lock: '' }]) {
        assert.strictEqual(versionOf(options), '18.3.0');
    }
    for (const name of ['flat', 'lowest', 'lockfile']) {
        for (const value of [0, 1, 'true', {}, [], () => true, Symbol('a'), 1n, new Boolean(true)]) {
            assert.throws(() => versionOf({ [name]: value }), { code: 'EINVALIDOPTION', message: `${name} must be true or false` });
        }
    }
    for (const nodeVersion of [20, 20n, true, {}, ['20.0.0'], Symbol('a'), new String('20.0.0')]) {
        assert.throws(() => versionOf({ nodeVersion }), { code: 'EINVALIDOPTION', message: 'nodeVersion must be a string' });
    }
    for (const nodeVersion of ['20', '^20', '\ud800', '20.0.0\0', '1'.repeat(300), 'x'.repeat(1 << 20)]) {
        assert.throws(() => versionOf({ nodeVersion }), { code: 'EINVALIDOPTION' });
    }
    for (const lock of [7, true, [], () => 1, Symbol('a'), new Date(0), new Proxy({}, {}), '7', '[]', 'null', '{"lockfileVersion":"3"}']) {
        assert.throws(() => versionOf({ lock }), { code: 'EINVALIDLOCK', message: 'the lock file: `lockfileVersion` is not 2 or 3' });
    }
    for (const lock of ['{', ' ', '\ud800', '\ufeff{}', `${'['.repeat(300)}`]) {
        assert.throws(() => versionOf({ lock }), { code: 'EINVALIDLOCK', message: /^the lock file cannot be read: / });
    }
    assert.throws(() => versionOf({ lock: 1n }), TypeError);
});

test('options that throw as they are read, and that change', () => {
    const thrown = new Error('read');
    const throwing = { get() { throw thrown; }, enumerable: true };
    for (const name of ['flat', 'lowest', 'lockfile', 'lock', 'nodeVersion']) {
        assert.throws(() => versionOf(Object.defineProperty({}, name, throwing)), thrown);
    }
    for (const lock of [
        Object.defineProperty({}, 'packages', throwing), { lockfileVersion: 3, packages: Object.defineProperty({}, 'a', throwing) },
        new Proxy({}, { getOwnPropertyDescriptor() { throw thrown; } }),
    ]) {
        assert.throws(() => versionOf({ lock }), thrown);
    }
    let count = 0;
    const options = { flat: true, get lockfile() { count += 1; return count === 1; } };
    assert.strictEqual(typeof resolve(asks, react, options).lockfile, 'string');
    assert.strictEqual(count, 1);
});

test('a lock file as the answer is a lock file as an option', () => {
    const { lockfile } = resolve({ dependencies: { a: '1.0.0' } }, tree, { flat: true, lockfile: true });
    for (const lock of [lockfile, JSON.parse(lockfile)]) {
        const { packages } = resolve({ dependencies: { a: '*' } }, tree, { lock });
        assert.deepStrictEqual(packages, [{ name: 'a', package: 'a', version: '1.0.0' }]);
    }
});

test('what is not read of a lock file does not count', () => {
    const lock = { lockfileVersion: 3, packages: { 'node_modules/react': { version: '17.0.2', license: '\ud800' } }, dependencies: '\udc00' };
    assert.strictEqual(versionOf({ lock }), '17.0.2');
    Object.freeze(lock);
    assert.strictEqual(versionOf({ lock }), '17.0.2');
});

test('values that JSON does not have', () => {
    for (const value of [undefined, () => 1, Symbol('a')]) {
        assert.throws(() => resolve(value, {}), { code: 'EINVALIDMANIFEST' });
        assert.throws(() => resolve({}, value), { code: 'EINVALIDDOCUMENTS' });
        assert.strictEqual(resolve(asks, { react: value }).outcome, 'none');
    }
    const cycle = { dependencies: {} };
    cycle.dependencies.a = cycle;
    assert.throws(() => resolve(cycle, {}), TypeError);
    assert.throws(() => resolve({}, { a: { 'dist-tags': cycle } }), TypeError);
    assert.throws(() => resolve({ dependencies: { a: 1n } }, {}), TypeError);
    let deep = {};
    for (let i = 0; i < 300; i++) {
        deep = { deep };
    }
    assert.throws(() => resolve({ deep }, {}), { code: 'EINVALIDMANIFEST' });
    assert.throws(() => resolve({}, { a: { time: deep } }), { code: 'EINVALIDDOCUMENTS' });
});

test('what is not read of a document does not count', () => {
    const documents = structuredClone(react);
    documents.react.readme = '\ud800';
    documents.react.versions['18.3.0'].dist = { signatures: ['\udc00'] };
    documents.react.versions['17.0.2'].deprecated = 'half: \ud800';
    documents.react.policyRestrictions = { message: '\ud800', versions: { '18.3.0': {} } };
    assert.strictEqual(resolve(asks, documents).packages[0].version, '18.0.0');
});

test('the arguments are not changed', () => {
    const [manifest, documents] = [structuredClone(asks), structuredClone(react)];
    resolve(manifest, documents);
    assert.deepStrictEqual([manifest, documents], [asks, react]);
    Object.freeze(manifest);
    Object.freeze(documents);
    assert.strictEqual(resolve(manifest, documents).outcome, 'selected');
});

test('its module is loaded by nothing else', () => {
    const script = `
        require(${JSON.stringify(root)});
        const loaded = () => Object.keys(require.cache).some((file) => file.endsWith('modules/read/npm_calls.js'));
        console.log(loaded(), typeof require(${JSON.stringify(path.join(root, 'resolve.js'))}), loaded());
    `;
    assert.strictEqual(spawnSync(process.execPath, ['-e', script], { encoding: 'utf8' }).stdout, 'false function true\n');
});
