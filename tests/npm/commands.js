// Runs commands of npm one after another, by npm's own code in this process: most commands take a tenth of the time in which an npm of
// its own starts. Each line of standard input is a command, as {"folder": "f", "words": ["ci"]}; the line of output for it has the status,
// and what npm says on standard error. `test_commands.py` compares it with npm itself.
'use strict';

const { Writable } = require('node:stream');
const { createInterface } = require('node:readline');
const { npms } = require('./shared.js');

const Npm = npms('../lib/npm.js');
const documents = new Map();  // What the registry has of each package, which it is asked for once.
const variables = { ...process.env };
process.argv.length = 2;  // npm reads its words from here too.

// The variables as they were: npm writes its settings there, and the next npm would read them.
function restoreVariables() {
    Object.keys(process.env).filter((name) => !(name in variables)).forEach((name) => delete process.env[name]);
    Object.assign(process.env, variables);
}

// A stream that keeps what is written to it.
function keeping() {
    const stream = new Writable({
        write(bytes, encoding, done) {
            stream.text += bytes;
            done();
        },
    });
    stream.text = '';
    return stream;
}

// The error with which a command ends, or `undefined`.
async function failure(npm) {
    try {
        const { command, args } = await npm.load();
        npm.config.flat.packumentCache = documents;
        await npm.exec(command, args);
        return undefined;
    } catch (error) {
        return error;
    }
}

async function run({ folder, words }) {
    process.chdir(folder);
    const stderr = keeping();
    const npm = new Npm({ stdout: keeping(), stderr, argv: words });
    const error = await failure(npm);
    npm.unload();
    const status = error?.exitCode ?? process.exitCode ?? (error ? 1 : 0);
    process.exitCode = undefined;
    restoreVariables();
    return { status, said: stderr.text };
}

async function main() {
    for await (const line of createInterface({ input: process.stdin })) {
        console.log(JSON.stringify(await run(JSON.parse(line))));
    }
}

main();
