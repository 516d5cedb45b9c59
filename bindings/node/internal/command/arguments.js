// SPDX-License-Identifier: Apache-2.0
// The request of a command line, as npm's command reads its words.
'use strict';

const LEVELS = ['major', 'minor', 'patch', 'prerelease', 'premajor', 'preminor', 'prepatch'];

// What each option without a value sets. Of two listings the last one counts.
const FLAGS = new Map([
    [['-rv', '-rev', '--rev', '--reverse'], { reverse: true }],
    [['-l', '--loose'], { loose: true }],
    [['-p', '--include-prerelease'], { includePrerelease: true }],
    [['-c', '--coerce'], { coerce: true }],
    [['--rtl'], { rtl: true }],
    [['--ltr'], { rtl: false }],
    [['--unsorted'], { listing: 'unsorted' }],
    [['--least'], { listing: 'least' }],
    [['--greatest'], { listing: 'greatest' }],
    [['--json'], { json: true }],
    [['--explain'], { explain: true }],
    [['-h', '--help', '-?'], { help: true }],
].flatMap(([names, set]) => names.map((name) => [name, set])));

// Adds a version, unless the option that it belongs to is the last word.
function addVersion(asked, text) {
    if (text !== undefined) {
        asked.versions.push(text);
    }
}

// Adds the option of this name. The words after it are left, the next one last.
function add(asked, name, left) {
    switch (name) {
        case '-r': case '--range': asked.ranges.push(left.pop()); break;
        case '-v': case '--version': addVersion(asked, left.pop()); break;
        case '-i': case '--inc': case '--increment':
            asked.increment = LEVELS.includes(left.at(-1)) ? left.pop() : 'patch';
            break;
        case '--preid': asked.identifier = left.pop(); break;
        case '-n': asked.base = left.pop(); break;
        default:
            if (FLAGS.has(name)) {
                Object.assign(asked, FLAGS.get(name));
            } else {
                asked.versions.push(name);
            }
    }
}

// The request of the words. A word is divided at its first `=`, and the part after it is the next word.
function readWords(words) {
    const asked = {
        versions: [], ranges: [], listing: 'ordered', loose: false, includePrerelease: false, coerce: false, rtl: false,
        reverse: false, json: false, explain: false, help: false,
    };
    const left = [...words].reverse();
    while (left.length > 0) {
        const word = left.pop();
        const equals = word.indexOf('=');
        if (equals >= 0) {
            left.push(word.slice(equals + 1));
        }
        add(asked, equals < 0 ? word : word.slice(0, equals), left);
    }
    return asked;
}

module.exports = { readWords };
