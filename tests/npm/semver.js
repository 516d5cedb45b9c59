// The program semver beside npm's command of that name, on the same command lines: node semver.js PROGRAM COUNT SEED. npm's command is
// run inside this process, since a process for each line takes 40 ms, and on some lines by a process of its own too.
'use strict';

const { spawnSync } = require('node:child_process');
const fs = require('node:fs');
const { createRequire } = require('node:module');
const path = require('node:path');
const { ROWS: READ_ROWS } = require('../../bindings/node/test/command-rows.js');
const { ROOT, program, count, below, one, wrong, end } = require('./shared.js');

// ---- npm's command

const command = path.join(ROOT, 'npm/node_modules/semver/bin/semver.js');
const source = fs.readFileSync(command, 'utf8').replace(/^#!.*/, '');
const body = new Function('process', 'console', 'require', source);
const required = createRequire(command);
const ENDED = Symbol('ended');

function npmsAnswer(words) {
    const answer = { status: 0, output: '', error: '' };
    const fake = { argv: ['node', 'semver', ...words], exit(status) { answer.status = status; throw ENDED; } };
    const console = {
        log(text) { answer.output += `${text}\n`; },
        error(text) { answer.error += `${text}\n`; },
    };
    try {
        body(fake, console, required);
    } catch (error) {
        if (error !== ENDED) {
            throw error;
        }
    }
    return answer;
}

function answerOf(file, words, input = '') {
    const { status, stdout, stderr } = spawnSync(file, words, { encoding: 'utf8', input });
    return { status, output: stdout, error: stderr };
}

const programsAnswer = (words, input) => answerOf(program, words, input);
const isSame = (one, other) => one.status === other.status && one.output === other.output && one.error === other.error;

// ---- the rows of the table of differences: words, what npm's command writes, and what the program writes

const BAD_IDENTIFIER = 'semver: --preid takes one identifier of a prerelease, as beta; --help lists the options\n';
const written = (...versions) => ({ status: 0, output: versions.map((version) => `${version}\n`).join(''), error: '' });
const stopped = (error) => ({ status: 2, output: '', error });
const NOTHING = { status: 1, output: '', error: '' };
const ROWS = [
    [['-r', 'vv1.2.3', '1.2.3'], NOTHING, written('1.2.3')],
    [['-c', '-p', `1.2.3+${'a'.repeat(251)}`], written('1.2.3'), NOTHING],
    [['-l', '-c', '01.2.3'], written('1.2.3'), NOTHING],
    [['-i', 'prerelease', '--preid', 'beta.1', '1.2.3'], written('1.2.4-beta.1.0'), stopped(BAD_IDENTIFIER)],
    [['-i', 'prerelease', '--preid', 'a b', '1.2.3'], written('1.2.4-a b.0'), stopped(BAD_IDENTIFIER)],
    [['-i', 'prerelease', '--preid', '01', '1.2.3'], written('1.2.4-01.0'), written('1.2.4-1.0')],
    [['-i', 'prerelease', '--preid', '1', '-n', 'false', '1.2.3-1'], written('1.2.3-1'), written('null')],
    [['-i', 'prerelease', '--preid', 'beta', '1.2.3-beta.0x1'], written('1.2.3-beta.0x1.0'), written('1.2.3-beta.0')],
    [['-i', 'prerelease', '-n', '2', '1.2.3'], written('1.2.4-1'), written('1.2.4-0')],
    [['-i', 'major', '9007199254740991.0.0'], written('9007199254740992.0.0'), written('null')],
    [['-i', 'prerelease', '1.2.3-9007199254740991'], written('1.2.3-9007199254740991.0'), written('null')],
    [['1.2.3-9007199254740993', '1.2.3-9007199254740992'], written('1.2.3-9007199254740993', '1.2.3-9007199254740992'),
        written('1.2.3-9007199254740992', '1.2.3-9007199254740993')],
];

// What `--help` writes is the program's own.
const isHelp = (words) => npmsAnswer(words).output.startsWith('SemVer ');

// ---- made command lines

const number = () => one(['0', '1', '2', '3', '7', '10', '12', '99', '1000']);
const IDENTIFIERS = ['0', '1', '2', '10', 'a', 'b', 'rc', 'beta', 'alpha', 'x-1', '-', '0a', 'rc1', 'B'];
const list = (length) => Array.from({ length }, () => one(IDENTIFIERS)).join('.');
const extras = () => (below(3) === 0 ? `-${list(1 + below(3))}` : '') + (below(5) === 0 ? `+${list(1 + below(2))}` : '');
const triple = () => `${number()}.${number()}.${number()}`;
const small = () => `${below(3)}.${below(3)}.${below(3)}`;
const plain = () => (below(2) ? small() : triple()) + extras();
const ODD = ['', ' ', '1', '1.2', '1.2.3.4', '01.2.3', '1.2.3-01', '1.2.3-', '1.2.3+', 'x', 'latest', 'v', '-', '--', '-x', '=',
    '1.2.3-beta!', '1.2.3 4.5.6', 'V1.2.3', 'vv1.2.3', '1.2.3\n', '\t1.2.3', '\u00a01.2.3\ufeff', '\u20281.2.3', '1.2.3\u0085',
    '9007199254740991.0.0', '9007199254740992.0.0', `1.2.3-${'a'.repeat(250)}`, `1.2.3-${'a'.repeat(251)}`, ` v1.2.3${' '.repeat(249)}`,
    ` v1.2.3${' '.repeat(248)}`, 'é1.2.3', '1.2.3é', '日本', '--no-such', '-abc', 'major', 'false', '*', '1.x', '^1.2.3'];
const MESSY = ['release-1.2.3', 'v1', 'a1b2c3', '1.2.3.4.5', 'node-14.x', '1.2.3-rc.1', '1.2.3-rc.1+5 4.5.6', '12345678901234567.2.3',
    '1.2-beta', 'x1.2.3-4f', '1.2.3-a.01', 'tag/3.4', '10.20.30-x', '1-2-3', '1..2', '.1.2.3.', '1.2.3abc'];

function version() {
    switch (below(8)) {
        case 0: return one(ODD);
        case 1: return `${one(['v', ' ', 'v', '= ', ' v'])}${plain()}${one(['', ' ', '  '])}`;
        case 2: return one(MESSY);
        default: return plain();
    }
}

function comparator() {
    const partial = one([plain, plain, () => `${number()}.${number()}`, () => `${number()}`, () => `${below(3)}.x`, () => '*'])();
    return one(['', '^', '~', '>=', '<', '<=', '>', '=', '~>', '^']) + partial;
}

function range() {
    switch (below(9)) {
        case 0: return one(['', '*', 'x', 'foo', '>', '1.2.3.4', '>=01.2', '1.2.3beta', '||', '1 ||', 'latest', '>=1 <2 || foo']);
        case 1: return `${plain()} - ${plain()}`;
        case 2: return `${comparator()} || ${comparator()}`;
        case 3: return `${comparator()} ${comparator()}`;
        default: return comparator();
    }
}

const LEVELS = ['major', 'minor', 'patch', 'prerelease', 'premajor', 'preminor', 'prepatch', 'pre', 'none', ''];
const valued = (name, value) => (below(3) === 0 ? [`${name}=${value}`] : [name, value]);

function option() {
    switch (below(14)) {
        case 0: case 1: case 2: return valued(one(['-r', '--range']), range());
        case 3: return valued(one(['-v', '--version']), version());
        case 4: return [one(['-c', '--coerce'])];
        case 5: return [one(['-l', '--loose'])];
        case 6: return [one(['-p', '--include-prerelease'])];
        case 7: return [one(['-rv', '-rev', '--rev', '--reverse'])];
        case 8: return [one(['--rtl', '--ltr'])];
        case 9: return valued('--preid', one(['beta', 'rc', 'alpha', 'a', 'x-1', '-', '']));
        case 10: return valued('-n', one(['0', '1', 'false', 'true', '', 'x']));
        case 11: return below(3) === 0 ? [one(['-r', '-v', '--preid', '-n', '-h', '-?', '--help=x', '--loose=1.2.3', '-i=major=1.2.3'])] : [];
        default: return [];
    }
}

const increment = () => (below(2) ? valued(one(['-i', '--inc', '--increment']), one(LEVELS)) : [one(['-i', '--inc'])]);

function shuffled(parts) {
    for (let at = parts.length - 1; at > 0; at--) {
        const other = below(at + 1);
        [parts[at], parts[other]] = [parts[other], parts[at]];
    }
    return parts.flat();
}

function commandLine() {
    const parts = Array.from({ length: below(4) }, option);
    if (below(3) === 0) {
        parts.push(increment(), [version()]);
        return shuffled(below(4) === 0 ? [...parts, [version()]] : parts);
    }
    return shuffled([...parts, ...Array.from({ length: below(7) }, () => [version()])]);
}

// What npm's command would write if it, too, made no number above the limit.
const withinLimit = (answer) => ({ ...answer, output: answer.output.replace(/^9007199254740992\..*$/m, 'null') });

// A difference that a row of the table explains: a text after --preid that is no identifier; with --loose and --coerce
// leading zeros; from the right a text that does not end in ASCII; and the increment of a number at the limit.
function isExplained(words, npms, ours) {
    const has = (...names) => words.some((word) => names.some((name) => word === name || word.startsWith(`${name}=`)));
    return (has('--preid') && ours.error === BAD_IDENTIFIER)
        || (has('-l', '--loose') && has('-c', '--coerce'))
        || (has('--rtl') && has('-c', '--coerce') && words.some((word) => /[^\x00-\x7f]$/.test(word)))
        || (has('-i', '--inc', '--increment') && isSame(withinLimit(npms), ours));
}

// ---- all of it

function check(isRight, name, words, npms, ours) {
    if (!isRight) {
        wrong(`${name}: ${JSON.stringify(words)}\n  npm: ${JSON.stringify(npms)}\n  here: ${JSON.stringify(ours)}`);
    }
}

for (const [words, npms, ours] of ROWS) {
    check(isSame(npmsAnswer(words), npms), 'what npm has in a row', words, npmsAnswer(words), npms);
    check(isSame(programsAnswer(words), ours), 'a row', words, ours, programsAnswer(words));
}
// What npm's command has not.
for (const [words, input, ours] of READ_ROWS) {
    check(isSame(programsAnswer(words, input), ours), 'what npm has not', words, ours, programsAnswer(words, input));
}
let helps = 0;
let explained = 0;
let printed = 0;
for (let at = 0; at < count; at++) {
    const words = commandLine();
    const npms = npmsAnswer(words);
    const ours = programsAnswer(words);
    if (npms.status === 0) {
        printed++;
    }
    if (isHelp(words)) {
        helps++;
        check(ours.status === 0 && ours.output.includes('Usage: semver'), 'help', words, npms, ours);
    } else if (!isSame(npms, ours) && isExplained(words, npms, ours)) {
        explained++;
    } else {
        check(isSame(npms, ours), 'a command line', words, npms, ours);
    }
    if (at % Math.ceil(count / 50) === 0) {
        const real = answerOf(process.execPath, [command, ...words]);
        check(isSame(real, npms), 'npm in a process of its own', words, npms, real);
    }
}
console.log(`${count} command lines, ${printed} with status 0, ${helps} with help, ${explained} in rows of the table`);
check(printed * 3 > count, 'a third of the lines writes versions', [], printed, count);
end(count + ROWS.length + READ_ROWS.length);
