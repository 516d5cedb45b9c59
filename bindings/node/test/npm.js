// SPDX-License-Identifier: Apache-2.0
// The `semver` inside the npm that is installed beside Node.
'use strict';

const fs = require('node:fs');
const path = require('node:path');

function npmFolder() {
    const prefix = path.join(path.dirname(fs.realpathSync(process.execPath)), '..');
    const places = [path.join(prefix, 'lib/node_modules/npm'), path.join(prefix, 'share/nodejs/npm')];
    const found = places.find((place) => fs.existsSync(path.join(place, 'node_modules/semver/package.json')));
    if (!found) {
        throw new Error(`no npm with its semver in ${places.join(' or ')}`);
    }
    return found;
}

const createNpm = () => require(path.join(npmFolder(), 'node_modules/semver'));

module.exports = { npmFolder, createNpm };
