// SPDX-License-Identifier: Apache-2.0
// Speed beside npm's own `semver`, in one run: the least of several rounds by turns, in nanoseconds of processor time a
// call. The time of other processes does not count. ROUNDS is how many, 70 if it is not set. With a word: the rows that
// have it. With the word `limits`: the rows that have a limit, as docs/SPEED.md has them; the status is 1 if one is above it. With the word
// `long`: how the time of each function grows with the length of a text.
'use strict';

const { calls, shapes } = require('./test/long.js');
const { createNpm } = require('./test/npm.js');
const here = require('./index.js');

const npm = createNpm();
const ROUNDS = Number(process.env.ROUNDS ?? 70);

// Versions and ranges as packages write them: most ranges are one caret, and 1 version in 40 is a prerelease.
function versions(count) {
    return Array.from({ length: count }, (_, i) => {
        const text = `${i * 7 % 11}.${i * 13 % 31}.${i * 17 % 101}`;
        return i % 40 === 0 ? `${text}-rc.${i % 5}` : text;
    });
}

function ranges(count) {
    return Array.from({ length: count }, (_, i) => {
        const text = `${i % 11}.${i * 3 % 31}.${i * 5 % 97}`;
        return i % 10 === 0 ? `~${text}` : i % 10 === 1 ? text : i % 10 === 2 ? `>=${text} <20` : `^${text}`;
    });
}

function processorTime() {
    const { user, system } = process.cpuUsage();
    return (user + system) * 1000;
}

// The time of a call, in a round that takes at least 5 ms: a short one, which other work seldom disturbs.
function timeOf(call) {
    const start = processorTime();
    let times = 0;
    let spent = 0;
    do {
        call();
        times++;
        spent = processorTime() - start;
    } while (spent < 5e6);
    return spent / times;
}

// The least times of two calls, by turns, so that other work on the machine disturbs both.
function least(one, other, rounds = ROUNDS) {
    const best = [Infinity, Infinity];
    for (let round = 0; round < rounds; round++) {
        best[0] = Math.min(best[0], timeOf(one));
        best[1] = Math.min(best[1], timeOf(other));
    }
    return best;
}

const some = versions(1000);
const previews = some.map((text, i) => `${text.split('-')[0]}-${['alpha', 'beta', 'rc'][i % 3]}.${i % 7}`);
const asked = ranges(200);
const many = versions(10000);
const different = ranges(1).concat(Array.from({ length: 20000 }, (_, i) => `^${i % 7}.${i}.${i * 3}`));

const hyphens = Array.from({ length: 20000 }, (_, i) => `${i % 7}.${i}.${i * 3} - ${i % 7 + 1}.${i % 5}`);

// How many calls a row makes at once, and what makes them. `read` is a list of SemVers, `range` a Range.
const each = (list, call) => [list.length, (semver) => {
    const one = call(semver);
    return () => list.forEach(one);
}];
const pairs = (list, call) => [list.length - 1, (semver) => {
    const read = list.map((text) => new semver.SemVer(text));
    return () => {
        for (let i = 1; i < read.length; i++) {
            semver[call](read[i - 1], read[i]);
        }
    };
}];
const once = (prepare) => [1, prepare];
const read = (semver, list) => list.map((text) => new semver.SemVer(text));
const text = (i) => some[i % 1000];

const rows = {
    '`satisfies`, texts, 200 ranges again and again': each(asked, (s) => (range, i) => s.satisfies(text(i), range)),
    '`satisfies`, texts, 20,000 ranges': each(different, (s) => (range, i) => s.satisfies(text(i), range)),
    '`satisfies`, prereleases included': each(asked, (s) => (range, i) =>
        s.satisfies(text(i), range, { includePrerelease: true })),
    '`Range.test` of a text': each(some, (s) => {
        const range = new s.Range('^1.2.3 || >=4 <7');
        return (version) => range.test(version);
    }),
    '`Range.test` of a `SemVer`': [1000, (s) => {
        const [range, list] = [new s.Range('^1.2.3 || >=4 <7'), read(s, some)];
        return () => list.forEach((version) => range.test(version));
    }],
    '`new Range`, 20,000 ranges': each(different, (s) => (range) => new s.Range(range)),
    '`validRange`, 200 ranges again and again': each(asked, (s) => (range) => s.validRange(range)),
    '`validRange`, 20,000 ranges': each(different, (s) => (range) => s.validRange(range)),
    '`validRange`, 20,000 hyphen ranges': each(hyphens, (s) => (range) => s.validRange(range)),
    '`new Range` and its `range`, 20,000 hyphen ranges': each(hyphens, (s) => (range) => new s.Range(range).range),
    '`new SemVer`': each(some, (s) => (version) => new s.SemVer(version)),
    '`new SemVer`, prereleases': each(previews, (s) => (version) => new s.SemVer(version)),
    '`valid`': each(some, (s) => (version) => s.valid(version)),
    '`clean`': each(some, (s) => (version) => s.clean(version)),
    '`parse`, loose': each(some, (s) => (version) => s.parse(version, true)),
    '`compare` of two texts': [999, (s) => () => {
        for (let i = 1; i < 1000; i++) {
            s.compare(some[i - 1], some[i]);
        }
    }],
    '`compare` of two `SemVer`s': pairs(some, 'compare'),
    '`compare` of two `SemVer`s with prereleases': pairs(previews, 'compare'),
    '`compare` of two `SemVer`s, words alone': pairs(previews.map((one) => `1.0.0-${one.split('-')[1]}`), 'compare'),
    '`compareBuild` of two `SemVer`s': pairs(previews.map((one) => `${one}+b.${one[0]}`), 'compareBuild'),
    '`diff` of two texts': each(some, (s) => (version, i) => s.diff(version, text(i + 1))),
    '`diff` of two `SemVer`s': pairs(some, 'diff'),
    '`sort` of 10,000 texts': once((s) => () => s.sort(many.slice())),
    '`sort` of 10,000 `SemVer`s': once((s) => {
        const list = read(s, many);
        return () => s.sort(list.slice());
    }),
    '`sort` of 1,000 `SemVer`s of one triple': once((s) => {
        const list = read(s, some.map((_, i) => `1.0.0-next.${i * 617 % 1000}`));
        return () => s.sort(list.slice());
    }),
    '`maxSatisfying` of 1,000 texts': once((s) => () => s.maxSatisfying(some, '^4.2.0')),
    '`maxSatisfying` of 1,000 `SemVer`s': once((s) => {
        const list = read(s, some);
        return () => s.maxSatisfying(list, '^4.2.0');
    }),
    '`inc`': each(some, (s) => (version) => s.inc(version, 'prerelease')),
    '`SemVer.inc`, patch': each(some, (s) => {
        const version = new s.SemVer('1.2.3');
        return () => version.inc('patch');
    }),
    '`SemVer.inc`, prerelease': each(some, (s) => {
        const version = new s.SemVer('1.2.3-rc.0');
        return () => version.inc('prerelease', 'rc');
    }),
    '`coerce`': each(some, (s) => (version) => s.coerce(`release ${version} x`)),
    '`coerce`, loose': each(some, (s) => (version) => s.coerce(`release ${version} x`, { loose: true })),
    '`coerce`, from the right': each(some, (s) => (version) => s.coerce(`release ${version} x`, { rtl: true })),
    '`coerce`, loose, from the right': each(some, (s) => (version) =>
        s.coerce(`release ${version} x`, { rtl: true, loose: true })),
    '`gtr`': each(asked, (s) => (range, i) => s.gtr(text(i), range)),
    '`gtr` of a `SemVer` and a `Range`': [200, (s) => {
        const [list, versions] = [asked.map((one) => new s.Range(one)), read(s, some)];
        return () => list.forEach((range, i) => s.gtr(versions[i], range));
    }],
    '`ltr`': each(asked, (s) => (range, i) => s.ltr(text(i), range)),
    '`minVersion`': each(asked, (s) => (range) => s.minVersion(range)),
    '`subset`': each(asked, (s) => (range, i) => s.subset(range, asked[(i * 7 + 1) % 200])),
    '`intersects`': each(asked, (s) => (range, i) => s.intersects(range, asked[(i * 7 + 1) % 200])),
    '`toComparators`': each(asked, (s) => (range) => s.toComparators(range)),
    '`simplifyRange` of 100 texts': once((s) => () => s.simplifyRange(some.slice(0, 100), '^1.2.3 || ^4.2.0 || 7.x')),
    '`new Comparator`': each(some, (s) => (version) => new s.Comparator(`>=${version}`)),
    '`Comparator.test`': each(some, (s) => {
        const comparator = new s.Comparator('>=4.2.0');
        return (version) => comparator.test(version);
    }),
};

// Which part of npm's time a call takes at most.
const limits = {
    '`satisfies`, texts, 200 ranges again and again': 0.1,
    '`satisfies`, texts, 20,000 ranges': 0.1,
    '`new Range`, 20,000 ranges': 0.1,
    '`maxSatisfying` of 1,000 texts': 0.3,
    '`compare` of two texts': 0.45,
    '`sort` of 10,000 texts': 0.1,
    '`sort` of 10,000 `SemVer`s': 0.3,
    '`valid`': 0.45,
    '`coerce`': 0.95,
    '`inc`': 0.95,
    '`subset`': 0.95,
    '`intersects`': 0.95,
    '`minVersion`': 0.95,
    '`validRange`, 20,000 ranges': 1,
    '`validRange`, 20,000 hyphen ranges': 1,
    '`new Range` and its `range`, 20,000 hyphen ranges': 1,
};

function compareWithLimits() {
    console.log("call | npm | here | of npm's time | at most\n---|---|---|---|---");
    for (const [name, most] of Object.entries(limits)) {
        const [calls, prepare] = rows[name];
        const [theirs, ours] = least(prepare(npm), prepare(here)).map((time) => time / calls);
        const part = ours / theirs;
        const times = [theirs, ours].map((time) => Math.round(time).toLocaleString('en'));
        console.log([name, ...times, part.toFixed(2), most.toFixed(2)].join(' | '));
        process.exitCode ||= Number(part > most);
    }
}

function compareWithNpm(word = '') {
    console.log('| call | npm, ns | here, ns | npm / here |\n|---|---|---|---|');
    for (const [name, [calls, prepare]] of Object.entries(rows).filter(([name]) => name.includes(word))) {
        const [theirs, ours] = least(prepare(npm), prepare(here)).map((time) => time / calls);
        console.log(`| ${name} | ${Math.round(theirs)} | ${Math.round(ours)} | ${(theirs / ours).toFixed(1)} |`);
    }
}

// How many times as long a text of 240,000 characters takes as one of 60,000: the greatest of each call.
function growth() {
    console.log('| call | longest text | time of 60,000 and of 240,000 characters, ms | times |\n|---|---|---|---|');
    for (const [name, call] of Object.entries(calls)) {
        const found = Object.entries(shapes).map(([shape, make]) => {
            const times = least(...[60000, 240000].map((length) => {
                const long = make(length);
                return () => {
                    try {
                        call(here, long, {});
                    } catch (error) {
                        if (!(error instanceof TypeError)) {
                            throw error;
                        }
                    }
                };
            }), 5).map((time) => time / 1e6);
            return { shape, times, ratio: times[1] / times[0] };
        });
        const { shape, times, ratio } = found.filter((one) => one.times[1] > 1).sort((a, b) => b.ratio - a.ratio)[0] ?? found[0];
        console.log(`| ${name} | ${shape} | ${times.map((time) => time.toFixed(2)).join(', ')} | ${ratio.toFixed(1)} |`);
    }
}

if (process.argv[2] === 'long') {
    growth();
} else if (process.argv[2] === 'limits') {
    compareWithLimits();
} else {
    compareWithNpm(process.argv[2]);
}
