// SPDX-License-Identifier: Apache-2.0
// The problems of a lock file, over the proved library npm_calls.
'use strict';

const { checked } = require('./internal/calls/checked.js');

// The options, each of which is read once.
const optionsOf = ({ manifest, workspaces, nodeVersion, ignore, omit, registry, sources, exact, strict, unchecked }) =>
    ({ manifest, workspaces, nodeVersion, ignore, omit, registry, sources, exact, strict, unchecked });

// check(lock, options): what is wrong with a lock file, and where it and manifests do not ask for the same.
const check = (lock, options = {}) => checked('check', { lock }, optionsOf(options));

module.exports = check;
