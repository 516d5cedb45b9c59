// SPDX-License-Identifier: Apache-2.0
// Writes to the standard error if NODE_DEBUG names `semver`. This package itself writes nothing.
'use strict';

const isOn = /\bsemver\b/i.test(process.env.NODE_DEBUG ?? '');

module.exports = isOn ? (...values) => console.error('SEMVER', ...values) : () => {};
