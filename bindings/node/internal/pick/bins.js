// SPDX-License-Identifier: Apache-2.0
// The member `bin` of a manifest in the form that npm gives it: an object of names and files inside the package. Without
// one it is deleted.
'use strict';

const { basename, join } = require('node:path');

// The names and files of any of npm's forms: one file, which is named as the package is, a list of files, or an object.
function namedBins({ name, bin }) {
    if (typeof bin === 'string') {
        return name ? { [name]: bin } : null;
    }
    if (Array.isArray(bin)) {
        return Object.fromEntries(bin.map((file) => [basename(file), file]));
    }
    return typeof bin === 'object' ? bin : null;
}

// A path below the package: nothing leads out of it.
const inside = (path) => join('/', path).slice(1);

function plainBins(bins) {
    const named = Object.entries(bins).filter(([, file]) => typeof file === 'string').map(([name, file]) => [
        inside(basename(name.replace(/\\|:/g, '/'))),
        inside(file.replace(/\\/g, '/')).replace(/\\/g, '/'),
    ]);
    return named.filter(([name, file]) => name && file);
}

// The manifest itself, whose `bin` is changed. One that cannot be changed stays as it is.
function withPlainBins(manifest) {
    if (typeof manifest !== 'object') {
        return manifest;
    }
    const bins = manifest.bin ? namedBins(manifest) : null;
    const plain = bins ? plainBins(bins) : [];
    if (plain.length > 0) {
        Reflect.set(manifest, 'bin', Object.fromEntries(plain));
    } else {
        Reflect.deleteProperty(manifest, 'bin');
    }
    return manifest;
}

module.exports = { withPlainBins };
