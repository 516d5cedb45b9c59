// SPDX-License-Identifier: Apache-2.0
// Made documents of packages, and questions about them: small ones with odd members, and large ones as registries serve them.
'use strict';

// A generator of numbers, the same for the same seed.
class Documents {
    constructor(seed) {
        this.state = seed >>> 0;
    }

    below(limit) {
        this.state = (this.state + 0x6d2b79f5) >>> 0;
        let t = this.state;
        t = Math.imul(t ^ (t >>> 15), t | 1);
        t ^= t + Math.imul(t ^ (t >>> 7), t | 61);
        return ((t ^ (t >>> 14)) >>> 0) % limit;
    }

    of(list) {
        return list[this.below(list.length)];
    }

    maybe(chance, make) {
        return this.below(100) < chance ? make() : undefined;
    }

    number() {
        return this.of([0, 1, 1, 2, 3, 10]);
    }

    version() {
        const tail = this.below(4) ? '' : `-${this.of(['alpha', 'beta.1', 'rc.1', 'rc.2', '0', 'x'])}`;
        return `${this.number()}.${this.number()}.${this.number()}${tail}`;
    }

    key() {
        return this.below(12) ? this.version()
            : this.of(['no', '1.2', 'v1.2.3', ' 1.0.0', '=1.1.1', '1.0.0+a', '01.1.1', '1.2.3beta', 'ü', '"', '\\']);
    }

    range() {
        const version = () => this.version();
        return this.of([
            () => `^${version()}`, () => `~${version()}`, () => `>=${version()}`, () => `<${version()}`,
            () => `<=${version()}`, () => `>=${version()} <${version()}`, () => `${version()} - ${version()}`,
            () => `^${version()} || ^${version()}`, () => String(this.number()), () => `${this.number()}.${this.number()}`,
            () => `${this.number()}.x`, () => '*', () => '*', () => '', () => ' ', () => 'x', () => undefined, () => null,
        ])();
    }

    time() {
        const day = `202${this.below(4)}-0${1 + this.below(9)}-1${this.below(10)}`;
        return this.of([
            () => `${day}T0${this.below(10)}:00:00.000Z`, () => `${day}T0${this.below(10)}:00:00.000Z`,
            () => `${day}T0${this.below(10)}:00:00Z`, () => `${day}T0${this.below(10)}:00:00.5+02:00`,
            () => this.of(['no time', '', null, false, 0, {}, true, '2020-01-01', 2021, 'Jan 1 2021', [], -8.64e15, 1e15]),
        ])();
    }

    truth() {
        return this.of([true, false, null, 0, 1, 0.5, '', 'old', [], {}, 'false']);
    }

    engine() {
        return this.of([() => `>=${this.version()}`, () => `^${this.number()}`, () => '*', () => 'no range', () => '"',
            () => this.truth(), () => '>=1 <3'])();
    }

    bin() {
        return this.of(['run.js', '', ['a/run.js', '../b.js'], { run: './run.js' }, { '../x': '../../y', z: 5, '': 'q', w: '' },
            7, [], {}, true]);
    }

    engines() {
        return this.below(12) === 0 ? this.of([null, [], 'node', 7, '', ['node >= 4']])
            : { ...this.member('node', 80, () => this.engine()), ...this.member('npm', 30, () => this.engine()) };
    }

    member(name, chance, make) {
        const value = this.maybe(chance, make);
        return value === undefined ? {} : { [name]: value };
    }

    manifest(version) {
        return {
            name: 'a', version,
            ...this.member('deprecated', 25, () => this.truth()),
            ...this.member('engines', 30, () => this.engines()),
            ...this.member('bin', 20, () => this.bin()),
        };
    }

    versions(keys) {
        return Object.fromEntries(keys.map((key) => [key, this.manifest(key)]));
    }

    keys(most) {
        return [...new Set(Array.from({ length: this.below(most) }, () => this.key()))];
    }

    tags(keys) {
        const key = () => (keys.length && this.below(6) ? this.of(keys) : this.of([this.version(), 'no']));
        return { ...this.member('latest', 80, key), ...this.member('next', 50, key), ...this.member('beta', 20, key) };
    }

    times(keys) {
        return Object.fromEntries(keys.filter(() => this.below(100) < 85).map((key) => [key, this.time()]));
    }

    packument(keys) {
        const [staged, restricted] = [this.keys(4), this.keys(4)];
        const all = [...keys, ...staged, ...restricted];
        const tags = this.tags(all);
        return {
            name: 'a',
            ...this.member('versions', 97, () => this.versions(keys)),
            ...this.member('dist-tags', 97, () => tags),
            ...this.member('time', 50, () => ({ created: '2019-01-01T00:00:00.000Z', ...this.times([...all, ...Object.values(tags)]) })),
            ...this.member('stagedVersions', 25, () => this.of([{ versions: this.versions(staged) }, {}, null])),
            ...this.member('policyRestrictions', 25, () => this.of([{ versions: this.versions(restricted), message: 'no' }, {}])),
        };
    }

    wanted(keys) {
        const own = keys.length ? this.of(keys) : this.version();
        return this.of([
            () => this.range(), () => this.range(), () => this.range(), () => this.range(), () => this.version(), () => own,
            () => own, () => `^${own}`, () => `=v${own}`, () => `${own}+build`,
            () => this.of(['latest', 'next', 'beta', 'gone', 'a b', ' latest', '~', '"', '@a', '1 2 x y']),
        ])();
    }

    options() {
        return {
            ...this.member('defaultTag', 15, () => this.of(['next', 'beta', 'gone'])),
            ...this.member('before', 35, () => this.of([
                () => `202${this.below(4)}-0${1 + this.below(9)}-15T00:00:00.000Z`, () => new Date(2021, this.below(12)),
                () => this.of([null, 0, 'no time', '2021', 1.6e12])])()),
            ...this.member('avoid', 35, () => this.of([this.range() ?? null, this.range() ?? null, 'no range'])),
            ...this.member('avoidStrict', 20, () => true),
            ...this.member('includeStaged', 25, () => true),
            ...this.member('nodeVersion', 60, () => this.of([this.version(), `v${this.version()}`, null, 'none'])),
            ...this.member('npmVersion', 30, () => this.of([this.version(), 'none'])),
        };
    }

    // A document, the wanted text, and options.
    question() {
        const keys = this.keys(9);
        return [this.packument(keys), this.wanted(keys), this.options()];
    }
}

// A document of so many versions, as a registry serves it: three lines of releases with prereleases before them.
function large(count) {
    const versions = {};
    const time = { created: '2015-01-01T00:00:00.000Z' };
    for (let i = 0; i < count; i++) {
        const version = `${1 + Math.floor(i * 3 / count)}.${Math.floor(i / 10)}.${i % 10}${i % 7 === 0 ? `-rc.${i % 3}` : ''}`;
        versions[version] = {
            name: 'large', version, engines: { node: i * 3 < count ? '>=10' : '^14.17.0 || ^16.13.0 || >=18.0.0' },
            dependencies: { one: '^1.2.3', two: '~2.0.0' }, dist: { tarball: `https://registry/large-${version}.tgz` },
            ...(i % 11 === 0 ? { deprecated: 'use a later version' } : {}),
        };
        time[version] = new Date(Date.UTC(2015, 0, 1) + i * 3600000).toISOString();
    }
    const last = Object.keys(versions).findLast((key) => !key.includes('-'));
    return { name: 'large', 'dist-tags': { latest: last, next: Object.keys(versions).at(-1) }, versions, time };
}

module.exports = { Documents, large };
