// SPDX-License-Identifier: Apache-2.0
// The call of the proved library npm_calls, which nothing else loads.
'use strict';

const { module: compiled } = require('#npm_calls');
const { newList } = require('../builtins.js');
const { outOfMemory } = require('../wasm/errors.js');
const { Caller, textOf } = require('../wasm/call.js');

const [OK, OUT_OF_MEMORY] = [0, 2];
// An answer is seldom longer than the text of its call and this.
const MORE = 4096;
// The length of the answer is written in 8 bytes.
const LENGTH = 8;

const caller = new Caller(compiled);

// The status and the bytes of the answer.
function answered(name, text) {
    return caller.run((it) => {
        const given = newList();
        it.put(name, given);
        it.put(text, given);
        const status = it.ask('npm_call', given, text.length + MORE, LENGTH);
        if (status === OUT_OF_MEMORY) {
            throw outOfMemory();
        }
        return { status, bytes: it.copy(it.room, it.number(it.told)) };
    });
}

// The answer to the call of this name with this text, or what is wrong with it as `refusal`.
function call(name, text) {
    const { status, bytes } = answered(name, text);
    const object = JSON.parse(textOf(bytes));
    return status === OK ? { answer: object } : { refusal: object };
}

module.exports = { call };
