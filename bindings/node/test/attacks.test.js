// SPDX-License-Identifier: Apache-2.0
// Arguments that run code of their own while they are read, and objects that have nothing. Each test has a process of
// its own, since it could end it.
'use strict';

const assert = require('node:assert');
const { spawnSync } = require('node:child_process');
const path = require('node:path');
const { describe, test } = require('node:test');

const root = path.join(__dirname, '..');

// What a script writes with `say`, in a process of its own. `evict` makes each place of the kept ranges empty.
function said(script) {
    const before = `
        const semver = require(${JSON.stringify(root)});
        const native = require(${JSON.stringify(path.join(root, 'internal/native.js'))});
        const say = (value) => process.stdout.write(JSON.stringify(value) + '\\n');
        const outcome = (call) => { try { return call(); } catch (error) { return error.constructor.name; } };
        const evict = () => { for (let i = 0; i < 600; i++) semver.validRange('foo' + i); };
        const external = Object.freeze(Object.create(null));
    `;
    const { status, signal, stdout, stderr } = spawnSync(process.execPath, ['--expose-gc', '-e', before + script],
        { encoding: 'utf8' });
    assert.deepStrictEqual({ status, signal }, { status: 0, signal: null }, stderr);
    return stdout.trim().split('\n').filter(Boolean).map((text) => JSON.parse(text));
}

describe('the process goes on', () => {
    test('a getter of Array.prototype evicts the kept range', () => {
        const [result] = said(`
            const range = '>=1.0.0-rc.1.2.3.4.5 <1.1.0-0 || >=1.0.0-rc.7.8.9 <1.1.0-0';
            const lists = [['1.0.0', '1.2.0'], [, '1.0.0'], { forEach: (call) => { call('1.0.0'); call('1.2.0'); } }];
            let isIn = false;
            const get = () => {
                if (!isIn) {
                    isIn = true;
                    evict();
                    isIn = false;
                }
                return '1.0.0';
            };
            for (const list of lists) {
                semver.validRange(range);
                ['a', 'b', 'c'].forEach(semver.validRange);
                Object.defineProperty(Array.prototype, 0, { get, set() {}, configurable: true });
                outcome(() => semver.maxSatisfying(list, range));
                outcome(() => semver.minSatisfying(list, range));
                outcome(() => semver.sort(list));
                outcome(() => new semver.Range(range).sets);
                delete Array.prototype[0];
            }
            say(semver.satisfies('1.0.0', range));
        `);
        assert.strictEqual(result, true);
    });
    test('a setter of Array.prototype sees the sets of a range', () => {
        assert.deepStrictEqual(said(`
            const range = new semver.Range('1 || 2.0.0-rc.1.2.3 || >=3.0.0-a <4.0.0-b');
            Object.defineProperty(Array.prototype, 0, { set() { evict(); gc(); }, configurable: true });
            outcome(() => range.sets);
            delete Array.prototype[0];
            say(range.sets.length);
        `), [3]);
    });
    test("a list's own methods return an object that has nothing", () => {
        assert.deepStrictEqual(said(`
            for (const name of ['filter', 'map', 'forEach', 'sort', 'push', 'slice', 'concat']) {
                const list = ['1.0.0', '2.0.0', '0.1.0'];
                list[name] = () => ({ length: 2, map: () => [external, external] });
                outcome(() => semver.sort(list));
                outcome(() => semver.rsort(list));
                outcome(() => semver.maxSatisfying(list, '^1'));
            }
            say(semver.sort(['2.0.0', '1.0.0']));
        `), [['1.0.0', '2.0.0']]);
    });
    test('an object that has nothing stands for each argument', () => {
        const [results] = said(`
            const list = { forEach: (call) => call(external) };
            say(Object.entries(semver).filter(([name]) => name !== 'RELEASE_TYPES').flatMap(([, call]) => [
                () => call(external), () => call('1.2.3', external), () => call(external, external),
                () => call([external, '1.0.0'], '^1'), () => call(list, '^1'), () => call(['1.0.0'], external),
                () => new call(external), () => call([external, external]),
            ].map((one) => typeof outcome(one))));
        `);
        assert.ok(results.length > 200, `${results.length} calls`);
    });
    test('a method of String is replaced', () => {
        said(`
            const { trim, slice, indexOf, split, includes } = String.prototype;
            const versions = ['1.0.0', '1.2.3-rc.1+b', '2.0.0'];
            for (const value of [external, undefined, 5, {}, Symbol('a'), [external], 'x\\n'.repeat(9)]) {
                for (const name of ['trim', 'slice', 'indexOf', 'split', 'includes', 'charAt']) {
                    const own = String.prototype[name];
                    String.prototype[name] = () => { evict; return value; };
                    for (const call of Object.values(semver)) {
                        outcome(() => call('1.2.3-rc.1+b', '^1.2.3-rc  || 4'));
                        outcome(() => call(versions, '^1  || 2'));
                        outcome(() => new call('^1.2.3-rc.1+b'));
                    }
                    String.prototype[name] = own;
                }
            }
            say(semver.satisfies('1.2.3', '^1'));
        `);
    });
    test('the calls of the library get anything', () => {
        const [count] = said(`
            const version = native.leastBeyond('0>1.2.9007199254740991', '0<1');
            const range = native.fromSets([1, version, 3, null]);
            const { proxy, revoke } = Proxy.revocable({}, {});
            revoke();
            // As \`evict\`, in a thousandth of the time. Garbage is collected after the calls of each function: nothing in the library waits for that.
            const evictAll = () => { native.forget(0, 576); for (let i = 0; i < 9; i++) native.keep('0*', i); };
            const trap = new Proxy([], { get() { evictAll(); return '1.0.0'; } });
            const getter = Object.defineProperty([, '1.2.3'], 0, { get() { evictAll(); return version; } });
            const detached = new Uint32Array(4);
            structuredClone(detached.buffer, { transfer: [detached.buffer] });
            const values = [undefined, null, true, 0, 5, 511, 512, 4294967295, -1, 1.5, NaN, 1n, '', '1.2.3', '^1', '0^1', '3*', '4', '\u0100', 'x',
                '1.2.3\\n2.0.0\\n', '\\n\\n', 'a\\u0000b', '\\ud800', 'x'.repeat(100000), Symbol('a'), () => 1, {}, [],
                [1, 2], [0, null, 3, null], [1, '1.0.0', 1, '2.0.0'], [1, version, 3, null], [1, range, 1, range],
                [9, '1.0.0', 9, null], [1, external, 1, external], [1, '1.0.0'], external, proxy, trap, getter,
                version, range, Object.create(version), new Proxy(version, {}), new Proxy(range, {}),
                detached, new Uint32Array(4), new Uint8Array(64).fill(10), new Uint8Array(0), Buffer.from('1.2.3\\n\\n9')];
            let count = 0;
            for (const [name, call] of Object.entries(native)) {
                if (typeof call !== 'function') continue;
                outcome(() => call());
                for (const one of values) {
                    outcome(() => call(one));
                    for (const other of values) {
                        outcome(() => call(one, other));
                        outcome(() => call(one, other, true));
                        outcome(() => call([one], other, true));
                        outcome(() => call([one, other], '0^1', false));
                        outcome(() => call(other, [one], one, other));
                        outcome(() => call(one, other, 3, 0));
                        count++;
                    }
                }
                gc();
            }
            say(count);
        `);
        assert.ok(count > 20000, `${count} calls`);
    });
    test('no memory of the library is seen by JavaScript, which could write to it', () => {
        assert.deepStrictEqual(said(`
            const seen = Object.values(native).filter((value) => typeof value !== 'function');
            const given = semver.key('1.2.3').buffer.byteLength + semver.Range.fromSets(new semver.Range('1').sets).intervals()[0].lower.buffer.byteLength;
            say([seen.length, given < 1 << 17]);
        `), [[0, true]]);
    });
    test('a version is passed for a range, and a range for a version', () => {
        assert.deepStrictEqual(said(`
            const version = semver.leastBeyond('>1.2.9007199254740991', '<1');
            const range = new semver.Range('1 || 2 || '.repeat(30) + '3');
            say([() => semver.compare(range, '1.0.0'), () => semver.satisfies('1.0.0', version),
                () => semver.satisfies(range, '1'), () => new semver.Range(version), () => new semver.SemVer(range),
                () => semver.intersect(version, range), () => semver.sort([range, '1.0.0']),
                () => semver.maxSatisfying([range], '1')].map(outcome));
        `), [['TypeError', false, 'TypeError', 'TypeError', 'TypeError', 'TypeError', 'TypeError', 'TypeError']]);
    });
});
