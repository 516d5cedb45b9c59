// SPDX-License-Identifier: Apache-2.0
// What the library reads of documents: shorter documents, as JSON.
'use strict';

const OF_DOCUMENT = ['dist-tags', 'time'];
const GROUPS = ['dependencies', 'devDependencies', 'optionalDependencies', 'peerDependencies'];
const OF_MANIFEST = ['engines', 'peerDependenciesMeta', ...GROUPS];
// What only a lock file has of a version.
const OF_INSTALLED = ['bin', 'cpu', 'deprecated', 'dist', 'hasInstallScript', 'libc', 'license', 'os', 'scripts'];
const OF_DIST = ['integrity', 'shasum', 'tarball'];
const OF_LOCK = ['lockfileVersion', 'packages'];
const OF_PACKAGE = ['link', 'resolved', 'version', 'workspaces', ...GROUPS];

// An object that JSON writes with its own members.
const isPlain = (value) => value !== null && typeof value === 'object' && !Array.isArray(value)
    && typeof value.toJSON !== 'function';

// The same object with each member changed, or what is no such object as it is.
const changed = (value, change) =>
    (isPlain(value) ? Object.fromEntries(Object.entries(value).map(([name, member]) => [name, change(member)])) : value);

// The members of these names.
const some = (value, names) =>
    Object.fromEntries(names.filter((name) => Object.hasOwn(value, name)).map((name) => [name, value[name]]));

// The reason why a version is deprecated is not read.
function shorterManifest(manifest) {
    if (!isPlain(manifest)) {
        return manifest;
    }
    const deprecated = Object.hasOwn(manifest, 'deprecated') ? { deprecated: Boolean(manifest.deprecated) } : {};
    return { ...some(manifest, OF_MANIFEST), ...deprecated };
}

// The same with what a lock file has of it.
function installedManifest(manifest) {
    if (!isPlain(manifest)) {
        return manifest;
    }
    const { dist, ...others } = some(manifest, [...OF_MANIFEST, ...OF_INSTALLED]);
    return { ...others, dist: isPlain(dist) ? some(dist, OF_DIST) : undefined };
}

// The versions of a document, or of what a policy says of it.
const versionsOf = (value, change) => (Object.hasOwn(value, 'versions') ? { versions: changed(value.versions, change) } : {});

function shorterDocument(document, change) {
    if (!isPlain(document)) {
        return document;
    }
    const { policyRestrictions: policy } = document;
    return {
        ...some(document, OF_DOCUMENT),
        ...versionsOf(document, change),
        policyRestrictions: isPlain(policy) ? versionsOf(policy, shorterManifest) : {},
    };
}

// The JSON of a value; `null` for what JSON cannot write, as a function.
const textOf = (value) => JSON.stringify(value) ?? 'null';

// The JSON of documents; with all that a lock file has of a version, if one is asked for.
const documentsText = (documents, isForLock) =>
    textOf(changed(documents, (document) => shorterDocument(document, isForLock ? installedManifest : shorterManifest)));

const shorterPackage = (entry) => (isPlain(entry) ? some(entry, OF_PACKAGE) : entry);

// The JSON of a lock file that is an object, or its text as it is.
function lockText(lock) {
    if (typeof lock === 'string') {
        return lock;
    }
    if (!isPlain(lock)) {
        return textOf(lock);
    }
    const { packages, ...others } = some(lock, OF_LOCK);
    return textOf({ ...others, packages: changed(packages, shorterPackage) });
}

module.exports = { documentsText, lockText, textOf };
