// SPDX-License-Identifier: Apache-2.0
// The errors of npm, with its codes, its messages and its members.
'use strict';

const { validRange } = require('../ranges.js');
const { valid } = require('../versions.js');

// What npm takes for a file, a folder, a repository, an address or another package.
const LOCATION = /^(?:\.|~\/|[a-z]:|(?:git\+)?[a-z]+:)|\/|\.(?:tgz|tar.gz|tar)$/i;

const isTag = (text) => encodeURIComponent(text) === text;

// What npm calls the kind of a text.
function typeOf(wanted) {
    const text = wanted ? wanted.trim() : '';
    if (valid(text, true) !== null) {
        return 'version';
    }
    return validRange(text, true) !== null ? 'range' : 'tag';
}

const made = (message, members) => Object.assign(new Error(message), members);

// The text is no version, no range and no tag.
function invalidTag(name, wanted) {
    const of = name ? `${name}@${wanted}` : wanted;
    return made(`Invalid tag name "${wanted.trim()}" of package "${of}": Tags may not have any characters that encodeURIComponent `
        + 'encodes.', { code: 'EINVALIDTAGNAME' });
}

const UNSUPPORTED = 'Only tag, version, and range are supported';

// Where a tag's version was published too late, npm picks from the versions at or below it.
const below = ({ packument, wanted }) => `<=${packument['dist-tags'][wanted]}`;

function noVersions(asked) {
    const { packument, wanted, options: { before, defaultTag } } = asked;
    const isTag = Boolean(wanted) && typeOf(wanted) === 'tag';
    return made(`No versions available for ${packument.name}`, {
        code: 'ENOVERSIONS',
        name: packument.name,
        type: isTag ? 'range' : typeOf(wanted || defaultTag),
        wanted: isTag ? below(asked) : wanted,
        before,
        versions: Object.keys(packument.versions || {}),
    });
}

function onlyAvoided({ packument, wanted, options: { avoid, before } }) {
    return made(`No avoidable versions for ${packument.name}`, {
        code: 'ETARGET', name: packument.name, wanted, avoid, before, versions: Object.keys(packument.versions || {}),
    });
}

// There is no version, or a policy forbids it.
function noTarget({ packument, wanted, options: { before, defaultTag } }, isForbidden) {
    const { name } = packument;
    const what = `${name}@${wanted}${before ? ` with a date before ${new Date(before).toLocaleString()}` : ''}`;
    const message = isForbidden
        ? `Could not download ${what} due to policy violations:\n${packument.policyRestrictions.message}`
        : `No matching version found for ${what}.`;
    return made(message, {
        code: isForbidden ? 'E403' : 'ETARGET',
        type: typeOf(wanted),
        wanted,
        versions: Object.keys(packument.versions ?? {}),
        name,
        distTags: packument['dist-tags'],
        defaultTag,
    });
}

function invalidWanted(asked) {
    const { packument, wanted } = asked;
    if (LOCATION.test(wanted)) {
        return new Error(UNSUPPORTED);
    }
    return invalidTag(packument.name, isTag(wanted.trim()) ? below(asked) : wanted);
}

// The error of an outcome.
function errorOf(outcome, asked) {
    switch (outcome) {
    case 'invalid_wanted':
        return invalidWanted(asked);
    case 'no_versions':
        return noVersions(asked);
    case 'only_avoided':
        return onlyAvoided(asked);
    case 'no_tag':
        return LOCATION.test(asked.wanted) ? new Error(UNSUPPORTED) : noTarget(asked, false);
    case 'no_version':
    case 'none_in_range':
        return noTarget(asked, false);
    case 'forbidden':
        return noTarget(asked, true);
    default:
        return new Error(`the document cannot be read: ${outcome}`);
    }
}

module.exports = { errorOf };
