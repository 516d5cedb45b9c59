// SPDX-License-Identifier: Apache-2.0
// Texts that are passed to the module, and those that it prints.
'use strict';

const { Bytes, codeAt, decode, encodeInto, ofCodes, set } = require('../builtins.js');
const { m, allocate, view } = require('./memory.js');
const { outOfMemory, wrongType } = require('./errors.js');

const LAST_ASCII = 127;
// A shorter text is written letter by letter, which takes less time.
const SHORT = 96;
const SHORT_PRINT = 40;
// The most bytes of UTF-8 that a unit of a string takes.
const WIDEST = 3;

const encoder = new TextEncoder();
const decoder = new TextDecoder('latin1');

function grow(which, size) {
    m.f.heap_free(m.texts[which]);
    m.sizes[which] = 0;
    m.texts[which] = allocate(size);
    m.sizes[which] = size;
}

// Makes room for so many bytes at one of the two places.
function makeRoomFor(which, size) {
    if (size > m.sizes[which]) {
        grow(which, size);
    }
}

// Writes a text at one of the two places, and returns how many bytes are written. Of a short one what stands before `from` may be left out.
function put(which, text, from = 0) {
    if (typeof text !== 'string') {
        throw wrongType('an argument is no string');
    }
    const { length } = text;
    makeRoomFor(which, length * WIDEST);
    const { u8 } = m;
    const to = m.texts[which];
    if (length <= SHORT) {
        let i = from;
        for (; i < length; i++) {
            const code = codeAt(text, i);
            if (code > LAST_ASCII) {
                break;
            }
            u8[to + i - from] = code;
        }
        if (i === length) {
            return length - from;
        }
    }
    return encodeInto(encoder, text, new Bytes(m.buffer, to, m.sizes[which])).written;
}

// The text of so many bytes of ASCII at a place. Eight letters at a time, since each call takes as long as eight letters.
function taken(at, length) {
    const b = m.u8;
    if (length > SHORT_PRINT) {
        return decode(decoder, new Bytes(m.buffer, at, length));
    }
    let text = '';
    let left = length;
    for (; left >= 8; left -= 8, at += 8) {
        text += ofCodes(b[at], b[at + 1], b[at + 2], b[at + 3], b[at + 4], b[at + 5], b[at + 6], b[at + 7]);
    }
    for (; left >= 3; left -= 3, at += 3) {
        text += ofCodes(b[at], b[at + 1], b[at + 2]);
    }
    return left === 2 ? text + ofCodes(b[at], b[at + 1]) : left === 1 ? text + ofCodes(b[at]) : text;
}

// Makes room for so many bytes of a print.
function makeRoom(size) {
    m.f.heap_free(m.room);
    m.roomSize = 0;
    m.room = allocate(size);
    m.roomSize = size;
}

// Calls a function that prints to the room, until the print fits, and returns its length.
function printed(call, slot, place) {
    for (;;) {
        const length = (place === undefined ? call(slot, m.room, m.roomSize) : call(slot, place, m.room, m.roomSize)) >>> 0;
        view();
        if (length <= m.roomSize) {
            return length;
        }
        makeRoom(length);
    }
}

// The text of a print that has letters, where there is memory for it.
function print(call, slot) {
    const length = printed(call, slot);
    if (length === 0) {
        throw outOfMemory();
    }
    return taken(m.room, length);
}

// The bytes that a function prints.
function bytes(call, slot, place) {
    const length = printed(call, slot, place);
    const copy = new Bytes(length);
    set(copy, new Bytes(m.buffer, m.room, length));
    return copy;
}

// The same as a Buffer, where there are Buffers. Not amid a call.
const bufferOf = (copy) => (typeof Buffer === 'undefined' ? copy : Buffer.from(copy.buffer));

module.exports = { SHORT, put, makeRoomFor, print, bytes, bufferOf };
