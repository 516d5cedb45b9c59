// SPDX-License-Identifier: Apache-2.0
// Options as npm reads them: nothing, an object, or any other value, which means `loose`.
'use strict';

const NONE = Object.freeze({});
const LOOSE = Object.freeze({ loose: true });

// The options of a range text, as the library knows them.
const INCLUDES_PRERELEASES = 1;
const IS_LOOSE = 2;

function parseOptions(options) {
    if (!options) {
        return NONE;
    }
    return typeof options === 'object' ? options : LOOSE;
}

const flagsOf = ({ loose, includePrerelease }) =>
    (includePrerelease ? INCLUDES_PRERELEASES : 0) + (loose ? IS_LOOSE : 0);

// Options with these flags.
const all = [NONE, { includePrerelease: true }, LOOSE, { loose: true, includePrerelease: true }].map(Object.freeze);
const optionsOf = (flags) => all[flags];

module.exports = { INCLUDES_PRERELEASES, IS_LOOSE, parseOptions, flagsOf, optionsOf };
