// Reads a JSON array a line, the name of a function of npm's semver and its arguments, and writes what it returns as a line of JSON.
// A range is its text, a version has its build, and an error is null.
'use strict';

const readline = require('readline');
const semver = require('../npm/shared.js').npms('semver');

function result(name, ...values) {
    try {
        const found = name === 'Range' ? new semver.Range(...values).range : semver[name](...values);
        return found instanceof semver.SemVer ? [found.version, ...found.build.length ? [found.build.join('.')] : []].join('+') : found;
    } catch (_) {
        return null;
    }
}

readline.createInterface({ input: process.stdin }).on('line', (line) => console.log(JSON.stringify(result(...JSON.parse(line)))));
