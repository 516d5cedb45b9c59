// SPDX-License-Identifier: Apache-2.0
'use strict';

// An instance whose memory is larger after a call is given up: memory never shrinks.
const MOST_MEMORY = 64 << 20;

module.exports = { MOST_MEMORY };
