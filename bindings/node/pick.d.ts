// SPDX-License-Identifier: Apache-2.0

/**
 * The manifest of the version of a package that npm would install for a version, a tag or a range: npm's
 * `npm-pick-manifest`. Throws a `PickError` if there is none.
 *
 * Of 1.2.0, 1.3.0 and 2.0.0, where `latest` is 1.2.0, it is that of 1.2.0 for `^1` and for `*`, and that of 1.3.0 for
 * `>=1.3 <2`.
 */
declare function pick<M extends pick.Manifest>(
    packument: pick.Packument<M>,
    wanted?: string | null,
    opts?: pick.Options,
): M & pick.Marks;

declare namespace pick {
    /** What is read of a manifest; `bin` is changed to the form that npm gives it. */
    interface Manifest {
        name?: string;
        version?: string;
        deprecated?: unknown;
        engines?: unknown;
        bin?: unknown;
    }

    /** The document of a package, as a registry serves it, whole or abbreviated. */
    interface Packument<M extends Manifest = Manifest> {
        name?: string;
        versions?: { readonly [version: string]: M } | null;
        'dist-tags'?: { readonly [tag: string]: string } | null;
        time?: { readonly [version: string]: unknown } | null;
        stagedVersions?: { readonly versions?: { readonly [version: string]: M } | null } | null;
        policyRestrictions?: {
            readonly versions?: { readonly [version: string]: M } | null;
            readonly message?: string;
        } | null;
    }

    interface Options {
        /** The version of this tag is preferred. Without it: `'latest'`. */
        defaultTag?: string | undefined;
        /** Versions that were published later are left out. */
        before?: Date | string | number | null | undefined;
        /** A range: its versions are picked only if no other version is left. */
        avoid?: string | null | undefined;
        /** A version to avoid is never picked: one outside the range is picked instead. */
        avoidStrict?: boolean | undefined;
        /** For `engines`. Without it: `process.version`. If it is null, any version of Node is fine. */
        nodeVersion?: string | null | undefined;
        /** For `engines`. Without it any version of npm is fine. */
        npmVersion?: string | null | undefined;
        /** The versions of `stagedVersions` can be picked too. */
        includeStaged?: boolean | undefined;
    }

    /** A manifest that has one of these is a copy. */
    interface Marks {
        /** It is a version to avoid, and no other version was left. */
        _shouldAvoid?: true;
        /** With `avoidStrict`: it was picked in place of a version to avoid. */
        _outsideDependencyRange?: true;
        /** With `_outsideDependencyRange`: it was picked of all versions, and not of those that `^` admits. */
        _isSemVerMajor?: boolean;
    }

    interface PickError extends Error {
        code?: 'ETARGET' | 'ENOVERSIONS' | 'E403' | 'EINVALIDTAGNAME' | 'ERR_MEMORY_ALLOCATION_FAILED';
        name: string;
        wanted?: string | null;
        type?: 'version' | 'range' | 'tag';
        versions?: string[];
        distTags?: { [tag: string]: string };
        defaultTag?: string;
    }
}

export = pick;
