// SPDX-License-Identifier: Apache-2.0
import pick = require('./pick');

/**
 * Versions of packages that fit together, or what cannot be installed together: what `npm install --strict-peer-deps` must find, or
 * stops at with `ERESOLVE`. One version is selected of each package that the manifest asks for, and of the peers of the versions
 * that are selected. A package of `optionalDependencies` that has no version in its range is left out.
 *
 * Names are chosen in the order in which they are first needed. Each choice is the first version with which a selection that fits
 * exists: that of the tag, or else the newest.
 */
declare function resolve(
    manifest: resolve.Manifest,
    documents: resolve.Documents,
    options?: resolve.Options & { lockfile?: false | null | undefined },
): resolve.Resolution;

/** With `lockfile: true`: a lock file in the place of the packages. */
declare function resolve(
    manifest: resolve.Manifest,
    documents: resolve.Documents,
    options: resolve.Options & { lockfile: true },
): resolve.LockResolution;

declare function resolve(
    manifest: resolve.Manifest,
    documents: resolve.Documents,
    options?: resolve.Options,
): resolve.Resolution | resolve.LockResolution;

declare namespace resolve {
    /** A package.json. */
    interface Manifest {
        name?: string;
        version?: string;
        dependencies?: { readonly [name: string]: string } | null;
        devDependencies?: { readonly [name: string]: string } | null;
        optionalDependencies?: { readonly [name: string]: string } | null;
        peerDependencies?: { readonly [name: string]: string } | null;
        peerDependenciesMeta?: { readonly [name: string]: { optional?: boolean } };
        /** Specs that count in place of others: a text is one for all versions of its name. Other rules are not read. */
        overrides?: Overrides | null;
    }

    /** Rules for the packages of these names, and for those below them. */
    interface Overrides {
        readonly [name: string]: string | Overrides;
    }

    /** The documents of packages by their names, as a registry serves them. A package that is not here has no versions. */
    interface Documents {
        readonly [name: string]: pick.Packument | null | undefined;
    }

    /** A package-lock.json, or an npm-shrinkwrap.json. */
    interface Lock {
        lockfileVersion?: number;
        packages?: { readonly [folder: string]: object };
    }

    /** Groups of dependencies. */
    type Group = 'dev' | 'optional' | 'peer';

    interface Options {
        /** The version of this tag is preferred. Without it: `'latest'`. */
        defaultTag?: string | null | undefined;
        /** Versions that were published later are left out. */
        before?: Date | string | number | null | undefined;
        /** What is left out: `devDependencies`, `optionalDependencies`, or all peers. */
        omit?: Group | readonly Group[] | null | undefined;
        /** For `engines`. Without it any version of Node is fine. */
        nodeVersion?: string | null | undefined;
        /** A package-lock.json of version 2 or 3, or its text. The version in `node_modules/NAME` comes first for a name. */
        lock?: Lock | string | null | undefined;
        /** Dependencies of selected versions count too: one version is selected of each package that is installed. */
        flat?: boolean | null | undefined;
        /** The lowest versions are preferred, and the tag does not count. */
        lowest?: boolean | null | undefined;
        /** The answer is a package-lock.json, if versions fit together. It takes `flat`, and no `omit`. */
        lockfile?: boolean | null | undefined;
        /** So many steps of the search are done at most, and so many again for the culprits. Without it: 10,000,000. */
        steps?: number | undefined;
    }

    /** A version that is selected. */
    interface Chosen {
        /** The name that is asked for. */
        name: string;
        /** The name of the package in the registry. It is another one for an alias. */
        package: string;
        /** The version, as the document writes it. */
        version: string;
    }

    /** A dependency that cannot be installed together with the others. Without any one of them the others can. */
    interface Culprit {
        name: string;
        spec: string;
        /** It is needed. Otherwise an optional peer, which only limits. */
        needed: boolean;
        /** There is a document of this name. */
        document: boolean;
        /**
         * The first version of the name, outside the range of the spec, with which all else that the manifest asks for can be met. It is
         * null if there is none, or if it takes more steps to find it.
         */
        would_fit: string | null;
    }

    /** What is asked of a name. The spec is null for any. */
    interface Wish {
        name: string;
        spec: string | null;
        needed: boolean;
    }

    /** What never holds together in a line: a version of a name that asks for a wish, and what a wish does not allow. */
    type Term =
        | { term: 'asking'; name: string; wish: Wish }
        | { term: 'outside'; wish: Wish };

    /**
     * A line of the reasons, and its sentence. It says what the manifest asks for; what versions of a name ask for; or that whatever is
     * installed of the name, one of the lines with these numbers, from 0, rules it out. The last line has no terms.
     */
    type Reason =
        | { source: 'root'; wish: Wish; terms: Term[]; text: string }
        | { source: 'versions'; name: string; versions: string[]; wish: Wish; terms: Term[]; text: string }
        | { source: 'lines'; name: string; lines: number[]; terms: Term[]; text: string };

    /** No versions fit together, and why. The culprits are null if it takes more steps to find them, and so are the reasons. */
    interface NoSelection {
        outcome: 'none';
        culprits: Culprit[] | null;
        reasons: Reason[] | null;
    }

    /** The steps were used up before either was known. */
    interface Undecided {
        outcome: 'undecided';
    }

    /** There is no lock file: the rules in `overrides` for these names are not read, and `npm ci` would refuse it. */
    interface Unread {
        outcome: 'unread';
        overrides: string[];
    }

    /** Names that an answer is about. */
    interface Names {
        /** Optional dependencies of which no version is in the range: they are left out. */
        left_out: string[];
        /** Packages without a document: versions that need them are left out. */
        missing: string[];
        /** Dependencies that ask no registry, as a folder or a repository: they are left out. */
        refused: string[];
        /** Packages whose rule in `overrides` is not read. */
        unread: string[];
    }

    /** The answer. An object may have more members than these. The packages are in the order in which they are first needed. */
    type Resolution = ({ outcome: 'selected'; packages: Chosen[] } | NoSelection | Undecided) & Names;

    /** The answer with `lockfile: true`: the text of a package-lock.json of version 3, if versions fit together. */
    type LockResolution = ({ outcome: 'selected'; lockfile: string } | Unread | NoSelection | Undecided) & Names;

    interface ResolveError extends Error {
        code?: 'EINVALIDMANIFEST' | 'EINVALIDDOCUMENTS' | 'EINVALIDLOCK' | 'EINVALIDOPTION' | 'ERR_MEMORY_ALLOCATION_FAILED';
    }
}

export = resolve;
