// SPDX-License-Identifier: Apache-2.0
// An instance of the module, its memory, and where things lie in it. It has its own memory, of which nothing outside is ever a part:
// no argument can make it read or write what is not its own.
//
// A call that is broken off, by a stack or a memory that ends or by a host that stops it, leaves an instance that answers no more: the
// next call begins with a new one. So does a call after one that has made the memory large, since it never shrinks. Nothing in the memory
// outlives a call but the ranges that are kept, which are read again where they are asked for.
'use strict';

const { module: compiled } = require('#node_semver');
const { Bytes, Words, bufferOf, fill, sizeOf } = require('../builtins.js');
const { outOfMemory } = require('./errors.js');
const { MOST_MEMORY } = require('./limits.js');

// What the calls of node_semver.h return.
const [OK, NONE, REFUSED, NOT_UTF8, OUT_OF_MEMORY] = [0, 1, 2, 3, 4];

// How many ranges are kept, each as a handle of 8 bytes.
const PLACES = 576;

// Where handles and results lie, in bytes from the start of a block: four handles, a fault, an answer, a set, and the range of all
// versions.
const [A, B, C, D, FAULT, ANSWER, SET, ANY, PLACE] = [0, 8, 16, 24, 32, 56, 64, 96, 104];
const SIZE = PLACE + 8 * PLACES;

const ROOM = 1024;

// `f` are the module's functions, `buffer`, `u8` and `u32` its memory of `size` bytes, and `at` is the start of the block above. `texts` are
// two places for texts that are passed, of `sizes` bytes, and `room` one for what is printed.
const m = {
    f: undefined, buffer: undefined, u8: undefined, u32: undefined, size: 0, at: 0, isBroken: true,
    texts: [0, 0], sizes: [0, 0], room: 0, roomSize: 0,
};

// The memory again: where it has grown, the old views have no bytes. After each call that may have grown it.
function view() {
    if (m.u8[0] === undefined) {
        m.buffer = bufferOf(m.f.memory);
        m.u8 = new Bytes(m.buffer);
        m.u32 = new Words(m.buffer);
        m.size = sizeOf(m.buffer);
    }
}

function allocate(size) {
    const at = m.f.heap_get(size) >>> 0;
    view();
    if (at === 0) {
        throw outOfMemory();
    }
    return at;
}

function begin() {
    // (where code of a user may run for the last time)
    m.f = new WebAssembly.Instance(compiled, {}).exports;
    m.u8 = new Bytes(0);
    view();
    m.at = allocate(SIZE);
    fill(m.u8, 0, m.at, m.at + SIZE);
    m.texts = [allocate(ROOM), allocate(ROOM)];
    m.sizes = [ROOM, ROOM];
    m.room = allocate(ROOM);
    m.roomSize = ROOM;
    m.u8[m.texts[0]] = 42; // '*'
    check(m.f.node_semver_range_parse_npm(m.texts[0], 1, 0, 1, m.at + ANY, m.at + FAULT));
    view();
}

// What stands before and after a call of the module. Nothing of a user's runs in between, so a call never finds another that is not done:
// see `builtins.js`.
function enter() {
    if (m.isBroken) {
        begin();
    }
    m.isBroken = true;
}

function leave(result) {
    view();
    m.isBroken = m.size > MOST_MEMORY;
    return result;
}

// A function that calls the module.
const calls = (call) => (one, two, three, four) => {
    enter();
    return leave(call(one, two, three, four));
};

// A status but OUT_OF_MEMORY, which is thrown. A text that is not UTF-8 is refused: it is half a character.
function check(status) {
    if (status === OUT_OF_MEMORY) {
        throw outOfMemory();
    }
    return status === NOT_UTF8 ? REFUSED : status;
}

module.exports = {
    m, OK, NONE, REFUSED, A, B, C, D, FAULT, ANSWER, SET, ANY, PLACE, PLACES, allocate, view, enter, leave, calls, check,
};
