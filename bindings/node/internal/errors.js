// SPDX-License-Identifier: Apache-2.0
'use strict';

// What a call returns where npm catches each error. Out of memory is thrown all the same.
function caught(error, result) {
    if (error?.code === 'ERR_MEMORY_ALLOCATION_FAILED') {
        throw error;
    }
    return result;
}

module.exports = { caught };
