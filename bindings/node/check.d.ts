// SPDX-License-Identifier: Apache-2.0
import resolve = require('./resolve');

/**
 * The problems of a package-lock.json, or of its text: dependencies that are missing or whose version is not in the range, as `npm ls` finds
 * them, and where a package.json and the lock file do not ask for the same.
 *
 * Throws a `CheckError` if the lock file or an option cannot be read.
 */
declare function check(lock: check.Lock | string, options?: check.Options): check.Report;

declare namespace check {
    /** A package-lock.json of version 1, 2 or 3. */
    interface Lock {
        lockfileVersion?: number;
        packages?: { readonly [folder: string]: object };
        dependencies?: { readonly [name: string]: object };
    }

    /** Groups of packages. */
    type Group = 'dev' | 'optional';

    /** Kinds of problems; `group` is what a manifest and the lock file do not ask alike. */
    type Kind = 'group' | 'missing' | 'invalid' | 'peer-local' | 'engine';

    interface Options {
        /** The package.json of the root, or its text. What it asks for counts in place of what the lock file says of the root. */
        manifest?: resolve.Manifest | string | null | undefined;
        /** The package.json of each workspace, by its folder. It takes `manifest`. */
        workspaces?: { readonly [folder: string]: resolve.Manifest } | null | undefined;
        /** `engines` of each package is checked with this version of Node. */
        nodeVersion?: string | null | undefined;
        /** Problems of these kinds are left out. */
        ignore?: readonly Kind[] | null | undefined;
        /** Packages of these groups are left out. */
        omit?: readonly Group[] | null | undefined;
        /** Packages come from below these URLs. */
        registry?: readonly string[] | null | undefined;
        /** Suspicious sources of packages are problems. */
        sources?: boolean | null | undefined;
        /** What is not asked alike counts for `clean`. */
        exact?: boolean | null | undefined;
        /** What is not checked counts for `clean`. Also `sources` and `unchecked`. */
        strict?: boolean | null | undefined;
        /** What is not checked is listed too. */
        unchecked?: boolean | null | undefined;
    }

    /** What is wrong, as `npm_lock_check --format json` writes it. */
    interface Problem {
        readonly [member: string]: unknown;
    }

    /** It may have more members than these. */
    interface Report {
        /** Nothing was found that counts. */
        clean: boolean;
        packages: number;
        dependencies: number;
        /** How many dependencies are not checked: a folder, a repository or a URL. */
        not_checked: number;
        problems: Problem[];
    }

    interface CheckError extends Error {
        code?: 'EINVALIDLOCK' | 'EINVALIDMANIFEST' | 'EINVALIDADVISORIES' | 'EINVALIDOPTION' | 'ERR_MEMORY_ALLOCATION_FAILED';
        /** What is wrong, as `invalid_lock`. */
        fault?: string;
        /** The path to the member that is at fault. */
        member?: Array<string | number>;
        /** Its place in the text of the document, if that is given as a text. */
        line?: number;
        column?: number;
    }
}

export = check;
