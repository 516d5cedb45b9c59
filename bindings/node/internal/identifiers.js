// SPDX-License-Identifier: Apache-2.0
// The order of two identifiers, as npm has it for values of any type, and npm's constants.
'use strict';

const isDigits = (value) => /^[0-9]+$/.test(value);

// Digits before all other identifiers, and by their numbers; the others by their characters.
function compareIdentifiers(one, other) {
    const areDigits = [isDigits(one), isDigits(other)];
    const [left, right] = areDigits[0] && areDigits[1] ? [+one, +other] : [one, other];
    if (left === right) {
        return 0;
    }
    if (areDigits[0] !== areDigits[1]) {
        return areDigits[0] ? -1 : 1;
    }
    return left < right ? -1 : 1;
}

const rcompareIdentifiers = (one, other) => compareIdentifiers(other, one);

// The version of the standard, and what a version may be raised by.
const SEMVER_SPEC_VERSION = '2.0.0';
const RELEASE_TYPES = ['major', 'premajor', 'minor', 'preminor', 'patch', 'prepatch', 'prerelease'];

module.exports = { compareIdentifiers, rcompareIdentifiers, SEMVER_SPEC_VERSION, RELEASE_TYPES };
