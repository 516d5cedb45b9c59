// SPDX-License-Identifier: Apache-2.0
// Brings into this folder what a package from `npm pack` has beside its sources: the modules of `../wasm`, built of the proved library,
// each as a file and, for bundles that take no such file, as text; and the licence.
//
//     node build.js
'use strict';

const { spawnSync } = require('node:child_process');
const fs = require('node:fs');
const path = require('node:path');

const MODULES = ['node_semver', 'npm_calls'];
const at = (...names) => path.join(__dirname, ...names);

function build() {
    const { status, error } = spawnSync('make', ['-s', '-C', at('../wasm')], { stdio: 'inherit' });
    if (status !== 0) {
        console.error(`build.js: make -C bindings/wasm: ${error ? error.message : `status ${status}`}`);
        process.exit(1);
    }
}

// A module as text, for a host that reads no file. The text is decoded once.
const inline = (bytes) => `// SPDX-License-Identifier: Apache-2.0
'use strict';

const text = atob('${bytes.toString('base64')}');

exports.module = new WebAssembly.Module(Uint8Array.from(text, (letter) => letter.charCodeAt(0)));
`;

function copy() {
    fs.mkdirSync(at('wasm'), { recursive: true });
    fs.mkdirSync(at('internal/modules/inline'), { recursive: true });
    for (const name of MODULES) {
        const bytes = fs.readFileSync(at('../wasm/build', `${name}.wasm`));
        fs.writeFileSync(at('wasm', `${name}.wasm`), bytes);
        fs.writeFileSync(at('internal/modules/inline', `${name}.js`), inline(bytes));
    }
    fs.copyFileSync(at('../../LICENSE'), at('LICENSE'));
}

if (!process.argv.includes('--copy')) {
    build();
}
copy();
