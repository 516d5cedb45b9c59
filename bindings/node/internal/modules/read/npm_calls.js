// SPDX-License-Identifier: Apache-2.0
'use strict';

exports.module = require('../file.js').read('npm_calls');
