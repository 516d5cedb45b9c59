// SPDX-License-Identifier: Apache-2.0
// Uses that compile with the types which users of npm's `semver` have, and uses of what is added.
import semver = require('..');
import audit = require('../audit');
import check = require('../check');
import pick = require('../pick');
import resolve = require('../resolve');

const range = new semver.Range('^1', true);
const versions: string[] = range.set.flat().map(({ semver: { version } }) => version);
const numbers: number[] = [range.set[0][0].semver.major, semver.minor('1.2.3'), new semver.SemVer('1.2.3').patch];
const texts: string[] = [range.set[0][0].semver.version, range.raw, range.range, range.format(), String(range)];

const comparator = new semver.Comparator('>=1.2.3', { loose: true });
comparator.parse('<2.0.0');
const isLower: boolean = comparator.operator === '>=' || comparator.operator === '=';
const isAny: boolean = comparator.semver === semver.Comparator.ANY;
const admits: boolean = comparator.test('1.2.3') && comparator.intersects(comparator, false);

const orders: Array<-1 | 0 | 1> = [
    semver.compare('1.2.3', new semver.SemVer('1.0.0')), semver.rcompare('1.2.3', '1.2.4', null),
    semver.compareIdentifiers('a', undefined), semver.rcompareIdentifiers(null, '1'),
    new semver.SemVer('1.2.3').comparePre('1.2.3-rc.1'),
];
const sorted: Array<string | semver.SemVer> = semver.sort(['1.2.3', new semver.SemVer('1.0.0')]);
const greatest: string | null = semver.maxSatisfying(['1.0.0'] as const, range);
const options: semver.Options = { loose: true, includePrerelease: true };
const next: string | null = semver.inc('1.2.3', 'prerelease', options, 'beta', '1');
const found: semver.SemVer | null = semver.coerce('1.2', { rtl: true, includePrerelease: true });
const release: semver.ReleaseType | null = semver.diff('1.2.3', '1.2.4');
const answers: boolean[] = [
    semver.satisfies('1.2.3', range), semver.subset('1', '1 || 2', options), semver.gtr('2.0.0', '^1'),
    semver.intersects('1', range, true), semver.cmp('1.2.3', '>=', '1.0.0'), semver.outside('1.0.0', '^2', '<'),
];
const printed: string | semver.Range = semver.simplifyRange(['1.0.0'], range);
const words: string[][] = semver.toComparators('1 || 2');

const sets: semver.VersionSet[] = semver.intersect('^1', '>=1.2')?.sets ?? [];
const made: semver.Range | null = semver.Range.fromSets(new Set(sets));
const least: semver.SemVer | null = semver.leastBeyond('^1 || ^2', '^1') ?? semver.leastCommon('1', '2');
const key: Uint8Array = semver.key('1.2.3');
const intervals: semver.KeyInterval[] = range.intervals().filter(({ lower, prereleases }) => lower < key || prereleases);

export {
    versions, numbers, texts, isLower, isAny, admits, orders, sorted, greatest, next, found, release, answers, printed,
    words, made, least, key, intervals,
};

// The version that npm would install.
const packument = { name: 'one', 'dist-tags': { latest: '1.0.0' }, versions: { '1.0.0': { version: '1.0.0', dist: { size: 7 } } } };
const size: number = pick(packument, '^1').dist.size;
const picked = pick(packument, undefined, { before: new Date(0), avoid: null, avoidStrict: true, nodeVersion: null, includeStaged: false });
const marks: Array<boolean | undefined> = [picked._shouldAvoid, picked._outsideDependencyRange, picked._isSemVerMajor];
const manifest: pick.Manifest & pick.Marks = pick({ versions: null } as pick.Packument, 'next', { defaultTag: 'next', npmVersion: '9.0.0' });
function codeOf(error: pick.PickError): string | undefined {
    return error.code === 'ETARGET' ? error.type : error.code;
}

// Versions that fit together.
const resolution: resolve.Resolution = resolve({ dependencies: { one: '^1' } }, { one: packument, two: null },
    { before: new Date(0), omit: ['dev', 'peer'], steps: 1000, defaultTag: 'next' });
const selected: string[] = resolution.outcome === 'selected' ? resolution.packages.map((one) => `${one.name}@${one.version}`) : [];
const lock: resolve.LockResolution = resolve({}, {}, { flat: true, lowest: false, nodeVersion: 'v20.1.0', lockfile: true,
    lock: { lockfileVersion: 3, packages: { 'node_modules/one': { version: '1.0.0' } } } });
const lockText: string = lock.outcome === 'selected' ? lock.lockfile : '';
const unread: string[] = lock.outcome === 'unread' ? lock.overrides : [];
const blamed: string[] = resolution.outcome === 'none' ? (resolution.culprits ?? []).map(({ name, spec }) => `${name}@${spec}`) : [];
function faultOf(error: resolve.ResolveError): string | undefined {
    return error.code === 'EINVALIDOPTION' ? error.message : error.code;
}

// Lock files.
const report: check.Report = check({ lockfileVersion: 3, packages: { '': {} } }, { manifest: { dependencies: { one: '1' } }, omit: ['dev'],
    ignore: ['peer-local'], workspaces: { w: {} }, nodeVersion: null, registry: ['https://r.example'], strict: true });
const hits: string[] = audit('{}', [], { severity: 'high', exceptions: [{ id: '7', package: 'a', reason: 'b' }], today: '2026-12-01' })
    .hits.map(({ folder, name, version }) => `${folder} ${name}@${version}`);
function placeOf(error: check.CheckError): Array<string | number> {
    return error.code === 'EINVALIDLOCK' ? error.member ?? [] : [error.line ?? 0, error.column ?? 0];
}

// Each name, each static one and each field and method of the classes, with its exact type: what may be null is so, and nothing else
// is. A name that is missing here, or not there, does not compile.
type Same<A, B> = (<T>() => T extends A ? 1 : 2) extends (<T>() => T extends B ? 1 : 2) ? true : false;
declare function is<A, B>(): Same<A, B>;

type Loose = boolean | semver.Options | null;
type Version = string | semver.SemVer;
type Given = Version | null | undefined;
type Wanted = string | semver.Range;
type Order = -1 | 0 | 1;
type Identifier = string | number | null | undefined;
type Released = 'major' | 'premajor' | 'minor' | 'preminor' | 'patch' | 'prepatch' | 'prerelease';
type Base = '0' | '1' | false;
type Compare = (one: Version, other: Version, options?: Loose) => Order;
type Ask = (one: Version, other: Version, options?: Loose) => boolean;
type Best = <T extends Version>(versions: readonly T[], range: Wanted, options?: Loose) => T | null;
type Beyond = (version: Version, range: Wanted, options?: Loose) => boolean;

export const names: Record<keyof typeof semver, true> = {
    parse: is<typeof semver.parse, {
        (version: Given, options?: Loose, throwErrors?: false): semver.SemVer | null;
        (version: Given, options: Loose | undefined, throwErrors: true): semver.SemVer;
    }>(),
    valid: is<typeof semver.valid, (version: Given, options?: Loose) => string | null>(),
    clean: is<typeof semver.clean, (version: string, options?: Loose) => string | null>(),
    inc: is<typeof semver.inc, {
        (version: Version, release: Released, options?: Loose, identifier?: string, base?: Base): string | null;
        (version: Version, release: Released, identifier?: string, base?: Base): string | null;
    }>(),
    diff: is<typeof semver.diff, (one: Version, other: Version) => Released | null>(),
    major: is<typeof semver.major, (version: Version, options?: Loose) => number>(),
    minor: is<typeof semver.minor, (version: Version, options?: Loose) => number>(),
    patch: is<typeof semver.patch, (version: Version, options?: Loose) => number>(),
    prerelease: is<typeof semver.prerelease, (version: Given, options?: Loose) => Array<string | number> | null>(),
    compare: is<typeof semver.compare, Compare>(),
    rcompare: is<typeof semver.rcompare, Compare>(),
    compareLoose: is<typeof semver.compareLoose, (one: Version, other: Version) => Order>(),
    compareBuild: is<typeof semver.compareBuild, Compare>(),
    sort: is<typeof semver.sort, <T extends Version>(list: T[], options?: Loose) => T[]>(),
    rsort: is<typeof semver.rsort, <T extends Version>(list: T[], options?: Loose) => T[]>(),
    gt: is<typeof semver.gt, Ask>(),
    lt: is<typeof semver.lt, Ask>(),
    eq: is<typeof semver.eq, Ask>(),
    neq: is<typeof semver.neq, Ask>(),
    gte: is<typeof semver.gte, Ask>(),
    lte: is<typeof semver.lte, Ask>(),
    cmp: is<typeof semver.cmp, (one: Version, operator: semver.Operator, other: Version, options?: Loose) => boolean>(),
    coerce: is<typeof semver.coerce, (version: Given | number, options?: semver.CoerceOptions) => semver.SemVer | null>(),
    satisfies: is<typeof semver.satisfies, (version: Given, range: Wanted, options?: Loose) => boolean>(),
    toComparators: is<typeof semver.toComparators, (range: Wanted, options?: Loose) => string[][]>(),
    maxSatisfying: is<typeof semver.maxSatisfying, Best>(),
    minSatisfying: is<typeof semver.minSatisfying, Best>(),
    minVersion: is<typeof semver.minVersion, (range: Wanted, options?: Loose) => semver.SemVer | null>(),
    validRange: is<typeof semver.validRange, (range: Wanted | null | undefined, options?: Loose) => string | null>(),
    outside: is<typeof semver.outside, (version: Version, range: Wanted, side: '>' | '<', options?: Loose) => boolean>(),
    gtr: is<typeof semver.gtr, Beyond>(),
    ltr: is<typeof semver.ltr, Beyond>(),
    intersects: is<typeof semver.intersects, (one: Wanted, other: Wanted, options?: Loose) => boolean>(),
    simplifyRange: is<typeof semver.simplifyRange, {
        (versions: Version[], range: string, options?: Loose): string;
        (versions: Version[], range: semver.Range, options?: Loose): string | semver.Range;
    }>(),
    subset: is<typeof semver.subset, (sub: Wanted, dom: Wanted, options?: semver.Options) => boolean>(),
    re: is<typeof semver.re, RegExp[]>(),
    src: is<typeof semver.src, string[]>(),
    tokens: is<typeof semver.tokens, Record<string, number>>(),
    SEMVER_SPEC_VERSION: is<typeof semver.SEMVER_SPEC_VERSION, '2.0.0'>(),
    RELEASE_TYPES: is<typeof semver.RELEASE_TYPES, readonly Released[]>(),
    compareIdentifiers: is<typeof semver.compareIdentifiers, (one: Identifier, other: Identifier) => Order>(),
    rcompareIdentifiers: is<typeof semver.rcompareIdentifiers, (one: Identifier, other: Identifier) => Order>(),
    intersect: is<typeof semver.intersect, (one: Wanted, other: Wanted, options?: Loose) => semver.Range | null>(),
    difference: is<typeof semver.difference, (one: Wanted, other: Wanted, options?: Loose) => semver.Range | null>(),
    leastBeyond: is<typeof semver.leastBeyond, (one: Wanted, other: Wanted, options?: Loose) => semver.SemVer | null>(),
    leastCommon: is<typeof semver.leastCommon, (one: Wanted, other: Wanted, options?: Loose) => semver.SemVer | null>(),
    key: is<typeof semver.key, (version: Version, options?: Loose) => Uint8Array>(),
    SemVer: is<ConstructorParameters<typeof semver.SemVer>, [version: Version, options?: Loose]>(),
    Range: is<ConstructorParameters<typeof semver.Range>, [range: Wanted | semver.Comparator, options?: Loose]>(),
    Comparator: is<ConstructorParameters<typeof semver.Comparator>, [comparator: string | semver.Comparator, options?: Loose]>(),
};

export const statics: Record<Exclude<keyof typeof semver.Range | keyof typeof semver.Comparator, 'prototype'>, true> = {
    fromSets: is<typeof semver.Range.fromSets,
        (sets: Iterable<{ readonly lower: semver.CutLike; readonly upper: semver.CutLike }>) => semver.Range | null>(),
    ANY: is<typeof semver.Comparator.ANY, semver.SemVer & symbol>(),
};

type OfSemVer = semver.SemVer;
export const ofSemVer: Record<keyof OfSemVer, true> = {
    options: is<OfSemVer['options'], semver.Options>(),
    loose: is<OfSemVer['loose'], boolean>(),
    includePrerelease: is<OfSemVer['includePrerelease'], boolean>(),
    raw: is<OfSemVer['raw'], string>(),
    major: is<OfSemVer['major'], number>(),
    minor: is<OfSemVer['minor'], number>(),
    patch: is<OfSemVer['patch'], number>(),
    prerelease: is<OfSemVer['prerelease'], Array<string | number>>(),
    build: is<OfSemVer['build'], string[]>(),
    version: is<OfSemVer['version'], string>(),
    format: is<OfSemVer['format'], () => string>(),
    toString: is<OfSemVer['toString'], () => string>(),
    compare: is<OfSemVer['compare'], (other: Version) => Order>(),
    compareMain: is<OfSemVer['compareMain'], (other: Version) => Order>(),
    comparePre: is<OfSemVer['comparePre'], (other: Version) => Order>(),
    compareBuild: is<OfSemVer['compareBuild'], (other: Version) => Order>(),
    inc: is<OfSemVer['inc'], (release: Released, identifier?: string, base?: Base) => semver.SemVer>(),
};

type OfRange = semver.Range;
export const ofRange: Record<keyof OfRange, true> = {
    options: is<OfRange['options'], semver.Options>(),
    loose: is<OfRange['loose'], boolean>(),
    includePrerelease: is<OfRange['includePrerelease'], boolean>(),
    raw: is<OfRange['raw'], string>(),
    range: is<OfRange['range'], string>(),
    set: is<OfRange['set'], semver.Comparator[][]>(),
    sets: is<OfRange['sets'], semver.VersionSet[]>(),
    intervals: is<OfRange['intervals'], () => semver.KeyInterval[]>(),
    format: is<OfRange['format'], () => string>(),
    toString: is<OfRange['toString'], () => string>(),
    toJSON: is<OfRange['toJSON'], () => Pick<OfRange, 'options' | 'loose' | 'includePrerelease' | 'raw' | 'set' | 'range'>>(),
    parseRange: is<OfRange['parseRange'], (range: string) => semver.Comparator[]>(),
    test: is<OfRange['test'], (version: Given) => boolean>(),
    intersects: is<OfRange['intersects'], (range: OfRange, options?: Loose) => boolean>(),
};

type OfComparator = semver.Comparator;
export const ofComparator: Record<keyof OfComparator, true> = {
    options: is<OfComparator['options'], semver.Options>(),
    loose: is<OfComparator['loose'], boolean>(),
    operator: is<OfComparator['operator'], '' | '=' | '>' | '>=' | '<' | '<='>(),
    semver: is<OfComparator['semver'], semver.SemVer>(),
    value: is<OfComparator['value'], string>(),
    parse: is<OfComparator['parse'], (comparator: string) => void>(),
    toString: is<OfComparator['toString'], () => string>(),
    test: is<OfComparator['test'], (version: Version | typeof semver.Comparator.ANY) => boolean>(),
    intersects: is<OfComparator['intersects'], (comparator: OfComparator, options?: Loose) => boolean>(),
};

export const picks: true = is<typeof pick,
    <M extends pick.Manifest>(packument: pick.Packument<M>, wanted?: string | null, opts?: pick.Options) => M & pick.Marks>();

export const resolves: true = is<typeof resolve, {
    (manifest: resolve.Manifest, documents: resolve.Documents,
        options?: resolve.Options & { lockfile?: false | null | undefined }): resolve.Resolution;
    (manifest: resolve.Manifest, documents: resolve.Documents, options: resolve.Options & { lockfile: true }): resolve.LockResolution;
    (manifest: resolve.Manifest, documents: resolve.Documents,
        options?: resolve.Options): resolve.Resolution | resolve.LockResolution;
}>();

export const checks: true = is<typeof check, (lock: check.Lock | string, options?: check.Options) => check.Report>();
export const audits: true = is<typeof audit, (lock: check.Lock | string, advisories: object | string, options?: audit.Options) => audit.Report>();
export const ofLocks = [report, hits, placeOf];

// The members of the values that calls take and return.
interface Flags { loose?: boolean | undefined; includePrerelease?: boolean | undefined }
export const members: true[] = [
    is<Required<semver.Options>, { loose: boolean | undefined; includePrerelease: boolean | undefined }>(),
    is<semver.Options, Pick<Flags, 'loose' | 'includePrerelease'>>(),
    is<semver.CoerceOptions['rtl'], boolean | undefined>(),
    is<keyof semver.CoerceOptions, 'loose' | 'includePrerelease' | 'rtl'>(),
    is<Required<semver.CoerceOptions>['rtl'], boolean | undefined>(),
    is<semver.KeyInterval['prereleases'], boolean>(),
    is<semver.KeyInterval['lower' | 'upper'], Uint8Array>(),
    is<keyof semver.KeyInterval, 'lower' | 'upper' | 'prereleases'>(),
    is<semver.VersionSet['lower' | 'upper'], semver.Cut>(),
    is<semver.Cut['kind'], 'start' | 'before' | 'after' | 'end'>(),
    is<semver.Cut['version'], semver.SemVer | null>(),
    is<semver.CutLike['kind'], semver.Cut['kind']>(),
    is<semver.CutLike['version'], Given>(),
    is<semver.Operator, '===' | '!==' | '' | '=' | '==' | '!=' | '>' | '>=' | '<' | '<='>(),
    is<semver.ReleaseType, Released>(),
    is<semver.IdentifierBase, Base>(),
    is<resolve.Culprit['would_fit'], string | null>(),
];
