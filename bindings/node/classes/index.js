// SPDX-License-Identifier: Apache-2.0
'use strict';

const { SemVer, Range, Comparator } = require('../index.js');

module.exports = { SemVer, Range, Comparator };
