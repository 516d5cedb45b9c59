// SPDX-License-Identifier: Apache-2.0
// Built-in functions as they are when the package is loaded. A call of the library makes no other, and in it no array grows or is iterated but lists:
// so no code of a user runs amid such a call, whatever is put in the place of a built-in function later.
'use strict';

const { wrongType } = require('./wasm/errors.js');

const { bind, call } = Function.prototype;

// A method as a function of its object and its arguments.
const plain = bind.bind(call);
const getter = (object, name) => plain(Object.getOwnPropertyDescriptor(object, name).get);

const { prototype: typedArray } = Object.getPrototypeOf(Uint8Array);

const { setPrototypeOf } = Object;

// An empty list: an array that inherits nothing, so that what is put into it meets no setter, and what it lacks no getter. Such an array
// grows ten times as fast as another object.
const newList = () => setPrototypeOf([], null);

function add(list, value) {
    list[list.length] = value;
}

// A list of the elements of an array, or of a list, which are read here.
function listOf(values) {
    if (typeof values !== 'object') {
        throw wrongType('no list');
    }
    const list = newList();
    const { length } = values;
    for (let i = 0; i < length; i++) {
        add(list, values[i]);
    }
    return list;
}

module.exports = {
    Bytes: Uint8Array,
    Words: Uint32Array,
    Numbers: Float64Array,
    newList,
    add,
    listOf,
    apply: Reflect.apply,
    numberOf: Number,
    ofCodes: String.fromCharCode,
    codeAt: plain(String.prototype.charCodeAt),
    fill: plain(typedArray.fill),
    set: plain(typedArray.set),
    lengthOf: getter(typedArray, 'length'),
    sizeOf: getter(ArrayBuffer.prototype, 'byteLength'),
    bufferOf: getter(WebAssembly.Memory.prototype, 'buffer'),
    encodeInto: plain(TextEncoder.prototype.encodeInto),
    decode: plain(TextDecoder.prototype.decode),
};
