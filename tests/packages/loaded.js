// Notes in the file LOADED which modules of the package a process has loaded.
'use strict';

process.on('exit', () => {
    for (const name of ['node_semver', 'npm_calls']) {
        if (Object.keys(require.cache).some((file) => file.endsWith(`semver/internal/modules/read/${name}.js`))) {
            require('node:fs').appendFileSync(process.env.LOADED, `${name}\n`);
        }
    }
});
