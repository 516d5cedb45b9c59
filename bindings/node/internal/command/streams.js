// SPDX-License-Identifier: Apache-2.0
// Standard input in lines, and texts for standard output, which are written before a line is waited for.
'use strict';

const fs = require('node:fs');

const ROOM = 65536;
const NEWLINE = 10;

// Why the command stops: its message is the line on standard error.
class CommandError extends Error {}

// Waits while a stream that does not block is not ready, and gives up on any other error.
function retried(call, message) {
    for (;;) {
        try {
            return call();
        } catch (error) {
            if (error.code !== 'EAGAIN') {
                throw new CommandError(message, { cause: error });
            }
            Atomics.wait(new Int32Array(new SharedArrayBuffer(4)), 0, 0, 5);
        }
    }
}

function writeAll(file, bytes) {
    for (let at = 0; at < bytes.length;) {
        at += retried(() => fs.writeSync(file, bytes, at), 'write failed');
    }
}

// Texts for standard output.
class Output {
    #texts = [];
    #length = 0;

    write(text) {
        this.#texts.push(text);
        this.#length += text.length;
        if (this.#length >= ROOM) {
            this.flush();
        }
    }

    flush() {
        const bytes = Buffer.from(this.#texts.join(''));
        this.#texts = [];
        this.#length = 0;
        writeAll(1, bytes);
    }
}

const sayLine = (line) => writeAll(2, Buffer.from(`${line}\n`));

// The bytes that are read from standard input at once; none at its end.
function readSome(room) {
    try {
        return room.subarray(0, retried(() => fs.readSync(0, room, 0, room.length, null), 'read failed'));
    } catch (error) {
        // What Windows says at the end of a pipe.
        if (error.cause?.code === 'EOF') {
            return room.subarray(0, 0);
        }
        throw error;
    }
}

// The lines of standard input, as bytes without the newline byte. The last one may lack it.
function* readLines(output) {
    let parts = [];
    for (;;) {
        output.flush();
        const bytes = readSome(Buffer.allocUnsafe(ROOM));
        if (bytes.length === 0) {
            break;
        }
        let start = 0;
        for (let end = bytes.indexOf(NEWLINE); end >= 0; end = bytes.indexOf(NEWLINE, start)) {
            parts.push(bytes.subarray(start, end));
            yield Buffer.concat(parts);
            parts = [];
            start = end + 1;
        }
        parts.push(bytes.subarray(start));
    }
    const last = Buffer.concat(parts);
    if (last.length > 0) {
        yield last;
    }
}

module.exports = { CommandError, Output, readLines, sayLine, writeAll };
