// SPDX-License-Identifier: Apache-2.0
// Errors of calls of the modules.
'use strict';

const { assign } = Object;

const outOfMemory = () => assign(new Error('out of memory'), { code: 'ERR_MEMORY_ALLOCATION_FAILED' });
const wrongType = (message) => assign(new TypeError(message), { code: 'ERR_INVALID_ARG_TYPE' });

module.exports = { outOfMemory, wrongType };
