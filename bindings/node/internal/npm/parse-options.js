// SPDX-License-Identifier: Apache-2.0
'use strict';

module.exports = require('../options.js').parseOptions;
