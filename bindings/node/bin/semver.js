#!/usr/bin/env node
// SPDX-License-Identifier: Apache-2.0
// npm's command `semver`: writes the valid versions that satisfy all ranges, in order of precedence. Its arguments, its lines
// and its status are npm's. The options that npm lacks, and what they write, are those of the proved program `semver`.
'use strict';

const semver = require('../index.js');
const { readWords } = require('../internal/command/arguments.js');
const { explained } = require('../internal/command/explain.js');
const { HELP } = require('../internal/command/help.js');
const { CommandError, Output, readLines, sayLine, writeAll } = require('../internal/command/streams.js');

const DASH = '-';
const WRITTEN = 0;
const NOTHING = 1;
const STOPPED = 2;

// ---- reading ----

const decoder = new TextDecoder('utf-8', { fatal: true, ignoreBOM: true });

// The text of a line; `undefined` if it is not in UTF-8.
function textOf(line) {
    try {
        return decoder.decode(line);
    } catch {
        return undefined;
    }
}

// The words that may be versions, with the lines of standard input in the place of the first `-`, or if there are no words.
function* textsOf(words, output) {
    const first = words.indexOf(DASH);
    yield* words.slice(0, Math.max(first, 0));
    if (words.length === 0 || first >= 0) {
        for (const line of readLines(output)) {
            yield textOf(line);
        }
    }
    yield* words.slice(first + 1).filter((word) => word !== DASH);
}

const optionsOf = ({ loose, includePrerelease, rtl }) => ({ loose, includePrerelease, rtl });

// The version that a text is read as, or null.
function versionOf(text, asked) {
    if (text === undefined) {
        return null;
    }
    const found = (asked.coerce && semver.coerce(text, optionsOf(asked))?.version) || text;
    return semver.parse(found);
}

// The range of a text; `undefined` if there is none, and then no version satisfies it.
function rangeOf(text, asked) {
    return text === undefined || semver.validRange(text, optionsOf(asked)) === null ? undefined
        : new semver.Range(text, optionsOf(asked));
}

// The versions that satisfy all ranges, in the order of their texts.
function* versionsOf(asked, ranges, output) {
    for (const text of textsOf(asked.versions, output)) {
        const version = versionOf(text, asked);
        if (version !== null && ranges.every((range) => range?.test(version))) {
            yield version;
        }
    }
}

// ---- writing ----

// Of the versions those that are listed, in their order.
function listed(versions, { listing, reverse }) {
    switch (listing) {
        case 'unsorted': return versions;
        case 'least': return best(versions, (one, other) => semver.compare(one, other));
        case 'greatest': return best(versions, (one, other) => semver.rcompare(one, other));
        default: return [...versions].sort(reverse ? semver.rcompare : semver.compare);
    }
}

// The first of the versions in this order, in a list; the empty list if there are none.
function best(versions, order) {
    let first;
    for (const version of versions) {
        if (first === undefined || order(version, first) < 0) {
            first = version;
        }
    }
    return first === undefined ? [] : [first];
}

// Writes the versions, a line each or as an array of JSON.
function writeList(versions, { json }, output) {
    let count = 0;
    for (const { version } of versions) {
        output.write(json ? `${count === 0 ? '[' : ','}"${version}"` : `${version}\n`);
        count++;
    }
    if (json) {
        output.write(count === 0 ? '[]\n' : ']\n');
    }
    return count === 0 ? NOTHING : WRITTEN;
}

// Writes the version after an increment. It is of one version, without a range.
function writeIncrement(asked, output) {
    const versions = [...versionsOf(asked, [], output)];
    if (versions.length === 0) {
        return writeList([], asked, output);
    }
    if (versions.length > 1 || asked.ranges.length > 0) {
        sayLine('--inc can only be used on a single version with no range');
        return NOTHING;
    }
    const base = asked.base === 'false' ? false : asked.base;
    const version = semver.inc(versions[0].version, asked.increment, optionsOf(asked), asked.identifier, base);
    if (version === null) {
        output.write(asked.json ? '[null]\n' : 'null\n');
        return WRITTEN;
    }
    return writeList([{ version }], asked, output);
}

// Writes the sets of the ranges. The first one that is refused, or missing, decides the error at the end.
function writeExplained(asked, output) {
    const isOther = asked.versions.length > 0 || asked.increment !== undefined || asked.ranges.length === 0;
    const texts = isOther ? [undefined] : asked.ranges;
    let isRefused = false;
    let isMissing = false;
    for (const text of texts) {
        if (text === undefined) {
            isMissing ||= !isRefused;
            continue;
        }
        const { written = '', said = '' } = explained(text, optionsOf(asked));
        output.write(written);
        writeAll(2, Buffer.from(said));
        isRefused ||= said !== '';
    }
    if (isMissing) {
        sayLine('--explain can only be used on ranges, with no version');
    }
    return isMissing || isRefused ? NOTHING : WRITTEN;
}

function reply(words, output) {
    const asked = readWords(words);
    if (words.length === 0 || asked.help) {
        output.write(HELP);
        return WRITTEN;
    }
    if (asked.explain) {
        return writeExplained(asked, output);
    }
    if (asked.increment !== undefined) {
        return writeIncrement(asked, output);
    }
    const ranges = asked.ranges.map((text) => rangeOf(text, asked));
    return writeList(listed(versionsOf(asked, ranges, output), asked), asked, output);
}

// What is said of an error.
function sentenceOf(error) {
    if (error instanceof CommandError) {
        return error.message;
    }
    if (error.code === 'ERR_MEMORY_ALLOCATION_FAILED') {
        return 'out of memory';
    }
    throw error;
}

function main(words) {
    const output = new Output();
    try {
        const status = reply(words, output);
        output.flush();
        return status;
    } catch (error) {
        try {
            sayLine(`semver: ${sentenceOf(error)}`);
        } catch (other) {
            sentenceOf(other);
        }
        return STOPPED;
    }
}

process.exitCode = main(process.argv.slice(2));
