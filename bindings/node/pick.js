// SPDX-License-Identifier: Apache-2.0
// The version of a package that npm would install: npm's `npm-pick-manifest`, over the proved library npm_calls.
'use strict';

const { withPlainBins } = require('./internal/pick/bins.js');
const { errorOf } = require('./internal/pick/errors.js');
const { keyOf, PICKED } = require('./internal/pick/key.js');
const { own } = require('./internal/pick/members.js');

// The options, with npm's defaults.
function optionsOf({
    defaultTag = 'latest', before = null, nodeVersion = process.version, npmVersion = null, includeStaged = false,
    avoid = null, avoidStrict = false,
}) {
    return { defaultTag, before, nodeVersion, npmVersion, includeStaged, avoid, avoidStrict };
}

// The manifest of a version; a copy if it has marks, as in npm.
function manifestOf({ packument, staged, restricted }, { version, avoided, outside, major }) {
    const manifest = own(packument.versions, version) || own(staged, version) || own(restricted, version);
    if (outside) {
        return { ...manifest, _outsideDependencyRange: true, _isSemVerMajor: major };
    }
    return avoided ? { ...manifest, _shouldAvoid: true } : manifest;
}

// pick(packument, wanted, opts): the manifest of the version that npm would install.
function pick(packument, wanted, opts = {}) {
    if (wanted && typeof wanted !== 'string') {
        throw new TypeError(`what is wanted must be a string, and is: ${typeof wanted}`);
    }
    const options = optionsOf(opts);
    const asked = {
        packument,
        wanted,
        options,
        staged: options.includeStaged ? packument.stagedVersions?.versions : undefined,
        restricted: packument.policyRestrictions?.versions,
    };
    const picked = keyOf(asked);
    if (picked.outcome !== PICKED) {
        throw errorOf(picked.outcome, asked);
    }
    return withPlainBins(manifestOf(asked, picked));
}

module.exports = pick;
