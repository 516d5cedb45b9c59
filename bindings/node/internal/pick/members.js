// SPDX-License-Identifier: Apache-2.0
// Members of documents, which may be anything that JSON has.
'use strict';

const isObject = (value) => value !== null && typeof value === 'object';

// An own member of an object, and else undefined.
const own = (object, key) => (isObject(object) && Object.hasOwn(object, key) ? object[key] : undefined);

const keysOf = (object) => (isObject(object) ? Object.keys(object) : []);

module.exports = { own, keysOf };
