// SPDX-License-Identifier: Apache-2.0
// A module from its file in the package. Nothing looks for it elsewhere.
'use strict';

const fs = require('node:fs');
const path = require('node:path');

exports.read = (name) => new WebAssembly.Module(fs.readFileSync(path.join(__dirname, `../../wasm/${name}.wasm`)));
