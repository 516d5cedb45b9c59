// SPDX-License-Identifier: Apache-2.0
// One call of a module that has few: texts go in, and a text comes out. An instance is made at the first call, and anew after a call
// that was broken off, for which no memory was left, or that made the memory large.
'use strict';

const { Bytes, newList, Words, add, apply, bufferOf, encodeInto, fill, set, sizeOf } = require('../builtins.js');
const { outOfMemory, wrongType } = require('./errors.js');
const { MOST_MEMORY } = require('./limits.js');

// The most bytes of UTF-8 that a unit of a string takes.
const WIDEST = 3;

const encoder = new TextEncoder();
const decoder = new TextDecoder('utf-8', { ignoreBOM: true });

class Caller {
    #module;
    #exports;
    #isBroken = true;
    #taken = newList();
    room = 0;
    told = 0;

    constructor(module) {
        this.#module = module;
    }

    get exports() {
        return this.#exports;
    }

    bytes(at, length) {
        return new Bytes(bufferOf(this.#exports.memory), at, length);
    }

    // A block for the time of the call.
    allocate(size) {
        const at = this.#exports.heap_get(size) >>> 0;
        if (at === 0) {
            throw outOfMemory();
        }
        add(this.#taken, at);
        return at;
    }

    // The same, of zeros.
    cleared(size) {
        const at = this.allocate(size);
        fill(this.bytes(at, size), 0);
        return at;
    }

    // The number of 32 bits that is written at a place.
    number(at) {
        return new Words(bufferOf(this.#exports.memory), at, 1)[0];
    }

    // Writes a text; adds where it is and how many bytes it has to the arguments of a call.
    put(text, given) {
        if (typeof text !== 'string') {
            throw wrongType('an argument is no string');
        }
        const at = this.allocate(text.length * WIDEST);
        add(given, at);
        add(given, encodeInto(encoder, text, this.bytes(at, text.length * WIDEST)).written);
    }

    // A copy of bytes, which outlives the call.
    copy(at, length) {
        const made = new Bytes(length);
        set(made, this.bytes(at, length));
        return made;
    }

    // Calls a function of the module that writes its answer to a room of `size` bytes, and how long it is, and maybe more, to `told` bytes.
    // Calls it once more if the answer is longer. Returns its status; then `room` and `told` are where these lie.
    ask(name, given, size, told) {
        const { length } = given;
        this.room = this.allocate(size);
        this.told = this.cleared(told);
        add(given, this.room);
        add(given, size);
        add(given, this.told);
        const status = apply(this.#exports[name], undefined, given);
        given.length = length;
        const needed = this.number(this.told);
        return needed > size ? this.ask(name, given, needed, told) : status;
    }

    // Runs a function that makes the call. Nothing of a user's runs inside it: see `builtins.js`.
    run(call) {
        if (this.#isBroken) {
            this.#exports = new WebAssembly.Instance(this.#module, {}).exports;
            this.#taken = newList();
        }
        this.#isBroken = true;
        const result = call(this);
        const taken = this.#taken;
        for (let i = 0; i < taken.length; i++) {
            this.#exports.heap_free(taken[i]);
        }
        taken.length = 0;
        this.#isBroken = sizeOf(bufferOf(this.#exports.memory)) > MOST_MEMORY;
        return result;
    }
}

const textOf = (bytes) => decoder.decode(bytes);

module.exports = { Caller, textOf };
