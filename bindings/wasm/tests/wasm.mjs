// SPDX-License-Identifier: Apache-2.0
// Runs a program of the tests that was built as WebAssembly:
//
//     wasm.mjs MODULE [NUMBER]    calls its function `run` with the number, and writes what it writes
import fs from 'node:fs';

const [path, number = '0'] = process.argv.slice(2);
const write_out = (at, length) => fs.writeSync(1, new Uint8Array(exports.memory.buffer, at, length));
const { instance: { exports } } = await WebAssembly.instantiate(fs.readFileSync(path), { env: { write_out } });
process.exitCode = exports.run(Number(number)) ?? 0;
