// SPDX-License-Identifier: Apache-2.0
// npm's constants.
'use strict';

const { RELEASE_TYPES, SEMVER_SPEC_VERSION } = require('../identifiers.js');
const { INCLUDES_PRERELEASES, IS_LOOSE } = require('../options.js');
const { LONGEST_VERSION } = require('../texts.js');

module.exports = {
    MAX_LENGTH: LONGEST_VERSION,
    // The most digits of a number that `coerce` finds.
    MAX_SAFE_COMPONENT_LENGTH: 16,
    // What `0.0.0+` leaves of the longest version.
    MAX_SAFE_BUILD_LENGTH: LONGEST_VERSION - '0.0.0+'.length,
    MAX_SAFE_INTEGER: Number.MAX_SAFE_INTEGER,
    RELEASE_TYPES,
    SEMVER_SPEC_VERSION,
    FLAG_INCLUDE_PRERELEASE: INCLUDES_PRERELEASES,
    FLAG_LOOSE: IS_LOOSE,
};
