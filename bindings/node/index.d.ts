// SPDX-License-Identifier: Apache-2.0
/// <reference lib="es2015.iterable" />

/** Options as npm has them. Any other value than an object, if it is truthy, means `loose`. Other options are ignored. */
export interface Options {
    loose?: boolean | undefined;
    includePrerelease?: boolean | undefined;
}

export interface CoerceOptions extends Options {
    rtl?: boolean | undefined;
}

type Loose = boolean | Options | null;

/** A version. Its fields may be changed, and then `format` sets `version` anew. */
export class SemVer {
    /** Throws a `TypeError` if the text is no version. */
    constructor(version: string | SemVer, options?: Loose);
    options: Options;
    loose: boolean;
    includePrerelease: boolean;
    /** The text as it was passed. */
    raw: string;
    major: number;
    minor: number;
    patch: number;
    prerelease: Array<string | number>;
    build: string[];
    /** The version without its build. */
    version: string;
    format(): string;
    toString(): string;
    compare(other: string | SemVer): -1 | 0 | 1;
    compareMain(other: string | SemVer): -1 | 0 | 1;
    comparePre(other: string | SemVer): -1 | 0 | 1;
    compareBuild(other: string | SemVer): -1 | 0 | 1;
    /** Changes this version to the next one. Throws if there is no such release type or identifier. */
    inc(release: ReleaseType, identifier?: string, identifierBase?: IdentifierBase): SemVer;
}

/** An operator and a version, as `>=1.2.3`. */
export class Comparator {
    /** What `semver` is where the comparator admits any version. */
    static readonly ANY: SemVer & symbol;
    /** Throws a `TypeError` if the text is no comparator. */
    constructor(comparator: string | Comparator, options?: Loose);
    options: Options;
    loose: boolean;
    operator: '' | '=' | '>' | '>=' | '<' | '<=';
    semver: SemVer;
    value: string;
    /** Sets `operator` and `semver` to those of a text. */
    parse(comparator: string): void;
    toString(): string;
    test(version: string | SemVer | typeof Comparator.ANY): boolean;
    intersects(comparator: Comparator, options?: Loose): boolean;
}

/** An end of a set, which is a place between versions: below all, just before or just after one, or above all. */
export type Cut =
    | { readonly kind: 'start' | 'end'; readonly version: null }
    | { readonly kind: 'before' | 'after'; readonly version: SemVer };

/** A set of a range: what lies from the lower cut up to the upper one. */
export interface VersionSet {
    readonly lower: Cut;
    readonly upper: Cut;
}

/** The keys from the lower one up to, and without, the upper one. */
export interface KeyInterval {
    readonly lower: Uint8Array;
    readonly upper: Uint8Array;
    /** Whether the interval is of prereleases, and else it is of releases. */
    readonly prereleases: boolean;
}

/** What may be passed for a cut: the version also as a text, and left out at the start and the end. */
export interface CutLike {
    readonly kind: 'start' | 'before' | 'after' | 'end';
    readonly version?: string | SemVer | null;
}

/** A range. What it admits is what its text admits, whatever becomes of its fields. */
export class Range {
    /** Throws a `TypeError` if the text is no range. */
    constructor(range: string | Range | Comparator, options?: Loose);
    options: Options;
    loose: boolean;
    includePrerelease: boolean;
    /**
     * The range of these sets in their order. Returns null if there are no sets, or if one of them has no place between
     * its cuts, lacks a version, or has a version that no range has.
     */
    static fromSets(sets: Iterable<{ readonly lower: CutLike; readonly upper: CutLike }>): Range | null;
    /** The text as it was passed, with each run of white space as one blank. */
    raw: string;
    /** The comparators of the range, as `>=1.2.0 <2.0.0-0||>=3.0.0`. */
    range: string;
    /** The same comparators, as values, for each alternative. */
    set: Comparator[][];
    /** The sets of versions of the range, in their order. They are made anew at each call. */
    readonly sets: VersionSet[];
    /**
     * The intervals of keys that the range is, for a database with `key(version)` in a column: a version satisfies the range
     * exactly if its key lies in one of the intervals of its kind. Those of one kind ascend and do not touch.
     */
    intervals(): KeyInterval[];
    format(): string;
    toString(): string;
    /** The fields of npm's `Range`, for `JSON.stringify`. */
    toJSON(): Pick<Range, 'options' | 'loose' | 'includePrerelease' | 'raw' | 'set' | 'range'>;
    /** The comparators of a text without `||`, by the options of this range. Throws a `TypeError` if there are none. */
    parseRange(range: string): Comparator[];
    test(version: string | SemVer | null | undefined): boolean;
    intersects(range: Range, options?: Loose): boolean;
}

export type Operator = '===' | '!==' | '' | '=' | '==' | '!=' | '>' | '>=' | '<' | '<=';

/** The version without its build, or null if the text is no version. */
export function valid(version: string | SemVer | null | undefined, options?: Loose): string | null;
/** The same of a text without the white space, `=` and `v` before it. */
export function clean(version: string, options?: Loose): string | null;
export function parse(version: string | SemVer | null | undefined, options?: Loose, throwErrors?: false): SemVer | null;
export function parse(
    version: string | SemVer | null | undefined,
    options: Loose | undefined,
    throwErrors: true,
): SemVer;
export function major(version: string | SemVer, options?: Loose): number;
export function minor(version: string | SemVer, options?: Loose): number;
export function patch(version: string | SemVer, options?: Loose): number;
/** The identifiers of the prerelease, or null if there are none. */
export function prerelease(version: string | SemVer | null | undefined, options?: Loose): Array<string | number> | null;

/**
 * Bytes that sort as versions do, in a `Buffer`: one key is less than another, byte by byte, exactly if its version is. The
 * build is not in it. Throws a `TypeError` if the text is no version.
 */
export function key(version: string | SemVer, options?: Loose): Uint8Array;

/** The version that a text holds somewhere, or null: `1.2.0` of `release 1.2`. */
export function coerce(version: string | number | SemVer | null | undefined, options?: CoerceOptions): SemVer | null;
/** The next version of a release type, or null. */
export function inc(
    version: string | SemVer,
    release: ReleaseType,
    options?: Loose,
    identifier?: string,
    identifierBase?: IdentifierBase,
): string | null;
export function inc(
    version: string | SemVer,
    release: ReleaseType,
    identifier?: string,
    identifierBase?: IdentifierBase,
): string | null;
/** The release type that leads from the lower of two versions to the higher, or null if they are equal. */
export function diff(one: string | SemVer, other: string | SemVer): ReleaseType | null;

/** The order of SemVer 2.0.0, section 11. The build is not looked at. */
export function compare(one: string | SemVer, other: string | SemVer, options?: Loose): -1 | 0 | 1;
export function rcompare(one: string | SemVer, other: string | SemVer, options?: Loose): -1 | 0 | 1;
export function compareLoose(one: string | SemVer, other: string | SemVer): -1 | 0 | 1;
/** The same order, and the builds where two versions are equal. */
export function compareBuild(one: string | SemVer, other: string | SemVer, options?: Loose): -1 | 0 | 1;
export function eq(one: string | SemVer, other: string | SemVer, options?: Loose): boolean;
export function neq(one: string | SemVer, other: string | SemVer, options?: Loose): boolean;
export function gt(one: string | SemVer, other: string | SemVer, options?: Loose): boolean;
export function gte(one: string | SemVer, other: string | SemVer, options?: Loose): boolean;
export function lt(one: string | SemVer, other: string | SemVer, options?: Loose): boolean;
export function lte(one: string | SemVer, other: string | SemVer, options?: Loose): boolean;
export function cmp(one: string | SemVer, operator: Operator, other: string | SemVer, options?: Loose): boolean;
/** Sort in place by `compareBuild`, and return the list. */
export function sort<T extends string | SemVer>(list: T[], options?: Loose): T[];
export function rsort<T extends string | SemVer>(list: T[], options?: Loose): T[];

/** Whether the version satisfies the range: false too if one of them is refused. */
export function satisfies(version: string | SemVer | null | undefined, range: string | Range, options?: Loose): boolean;
/** The greatest version that satisfies the range: of equal ones the first, or null. */
export function maxSatisfying<T extends string | SemVer>(
    versions: readonly T[],
    range: string | Range,
    options?: Loose,
): T | null;
export function minSatisfying<T extends string | SemVer>(
    versions: readonly T[],
    range: string | Range,
    options?: Loose,
): T | null;
/** The first of 0.0.0, 0.0.0-0 and the least version with which the range begins that satisfies it, or null. */
export function minVersion(range: string | Range, options?: Loose): SemVer | null;
/** The range as it prints, or null if the text is no range. */
export function validRange(range: string | Range | null | undefined, options?: Loose): string | null;
/** Whether the comparators of an alternative of the one meet those of an alternative of the other. */
export function intersects(one: string | Range, other: string | Range, options?: Loose): boolean;
/** Whether each alternative of `sub` lies inside one of `dom`. */
export function subset(sub: string | Range, dom: string | Range, options?: Options): boolean;
/** The comparators of each alternative, as texts. */
export function toComparators(range: string | Range, options?: Loose): string[][];
/** Whether the version is above all that the range admits, or below it. */
export function gtr(version: string | SemVer, range: string | Range, options?: Loose): boolean;
export function ltr(version: string | SemVer, range: string | Range, options?: Loose): boolean;
export function outside(version: string | SemVer, range: string | Range, side: '>' | '<', options?: Loose): boolean;
/** A range that admits the same versions of a list, if its text is shorter, else the range. Sorts the list. */
export function simplifyRange(versions: Array<string | SemVer>, range: string, options?: Loose): string;
export function simplifyRange(versions: Array<string | SemVer>, range: Range, options?: Loose): string | Range;

/**
 * The range of what both have, or null if they have nothing in common. It may admit a prerelease that one of them
 * refuses: the intersection of `^2.0.0-rc.1` and `>=1.5` admits `2.0.0-rc.4`, and `>=1.5` does not. `leastCommon`
 * returns a version that both admit.
 */
export function intersect(one: string | Range, other: string | Range, options?: Loose): Range | null;
/** The range of what the first has and the second has not, or null if there is nothing. */
export function difference(one: string | Range, other: string | Range, options?: Loose): Range | null;
/** The least version that satisfies the first range and not the second, or null if there is none. */
export function leastBeyond(one: string | Range, other: string | Range, options?: Loose): SemVer | null;
/** The least version that satisfies both ranges, or null if there is none. */
export function leastCommon(one: string | Range, other: string | Range, options?: Loose): SemVer | null;

/** The order of two identifiers: digits by their numbers, and before the others, which are ordered by characters. */
export function compareIdentifiers(one: Identifier, other: Identifier): -1 | 0 | 1;
export function rcompareIdentifiers(one: Identifier, other: Identifier): -1 | 0 | 1;
type Identifier = string | number | null | undefined;

/** npm's regular expressions, their sources, and the place of each by its name: `re[tokens.FULL]`. */
export const re: RegExp[];
export const src: string[];
export const tokens: Record<string, number>;

/** The version of SemVer. */
export const SEMVER_SPEC_VERSION: '2.0.0';
export const RELEASE_TYPES: readonly ReleaseType[];
export type ReleaseType = 'major' | 'premajor' | 'minor' | 'preminor' | 'patch' | 'prepatch' | 'prerelease';
/** The number after an identifier: `0` unless it is `1`; with `false` there is none. */
export type IdentifierBase = '0' | '1' | false;
