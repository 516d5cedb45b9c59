// SPDX-License-Identifier: Apache-2.0
'use strict';

const { compareIdentifiers, rcompareIdentifiers } = require('../identifiers.js');

module.exports = { compareIdentifiers, rcompareIdentifiers };
