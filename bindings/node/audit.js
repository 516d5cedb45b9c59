// SPDX-License-Identifier: Apache-2.0
// The packages of a lock file that security advisories hit, over the proved library npm_calls.
'use strict';

const { checked } = require('./internal/calls/checked.js');

// The day in UTC.
const today = () => new Date().toISOString().slice(0, 10);

// The options, each of which is read once.
const optionsOf = ({ severity, omit, exceptions, today: day }) => ({ severity, omit, exceptions, today: day ?? today() });

// audit(lock, advisories, options): the hits that count.
const audit = (lock, advisories, options = {}) => checked('audit', { lock, advisories }, optionsOf(options));

module.exports = audit;
