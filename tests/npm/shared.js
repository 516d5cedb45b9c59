// What the comparisons with npm share.
'use strict';

const { execFileSync } = require('node:child_process');
const path = require('node:path');

// The folder of the packages that are installed with npm, and a package that npm itself has there.
const ROOT = execFileSync('npm', ['root', '-g'], { encoding: 'utf8' }).trim();
const npms = (name) => require(path.join(ROOT, 'npm', 'node_modules', name));

// The program to run, how many cases are made, a number that makes others, and an empty folder.
const [, , program, count, seed, room] = process.argv;

// Numbers below a limit, always the same ones for a seed.
let state = Number(seed) >>> 0;
function below(limit) {
    state = (Math.imul(state, 1664525) + 1013904223) >>> 0;
    return Math.floor(state / 4294967296 * limit);
}
const one = (list) => list[below(list.length)];
const chance = (percent) => below(100) < percent;

let wrongs = 0;
// Counts what is wrong, and tells the first twenty.
function wrong(line) {
    wrongs += 1;
    if (wrongs <= 20) {
        console.log(`WRONG: ${line}`);
    }
}

// The last line says how many made cases were compared.
function end(compared) {
    console.log(`${compared} compared`);
    process.exitCode = wrongs === 0 ? 0 : 1;
}

module.exports = { ROOT, npms, program, count: Number(count), seed: Number(seed), room, below, one, chance, wrong, end };
