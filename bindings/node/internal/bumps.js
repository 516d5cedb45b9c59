// SPDX-License-Identifier: Apache-2.0
'use strict';

// npm's release types, by the numbers of the bumps in node_semver.h. The last is the next prerelease of the same three
// numbers, which `diff` never returns.
const BUMPS = [null, 'major', 'premajor', 'minor', 'preminor', 'patch', 'prepatch', 'prerelease', 'pre'];

module.exports = { BUMPS };
