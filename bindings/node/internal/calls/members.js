// SPDX-License-Identifier: Apache-2.0
// The text of a call: the JSON of an object, of members that are texts in JSON already.
'use strict';

// A member whose text is undefined is left out.
const objectText = (members) => {
    let text = '';
    for (const [name, value] of Object.entries(members)) {
        if (value !== undefined) {
            text += `${text && ','}"${name}":${value}`;
        }
    }
    return `{${text}}`;
};

// The JSON of a value; `null` for what JSON cannot write, as a function.
const textOf = (value) => JSON.stringify(value) ?? 'null';

// A document as a string: what is wrong with it is told apart from what is wrong with the call.
const documentOf = (text) => (text === undefined ? undefined : JSON.stringify(text));

module.exports = { documentOf, objectText, textOf };
