// The program npm_pick beside npm's own code, on the same files: node npm_pick.js PROGRAM COUNT SEED FOLDER. The version that is
// picked is compared with npm-pick-manifest, and the outdated dependencies with npm outdated, which uses a registry on the loopback
// that serves the same documents. What a mirror keeps is compared with npm-package-arg, which reads the specs, and with
// npm-pick-manifest and semver.
'use strict';

const { execFile, execSync, spawnSync } = require('node:child_process');
const fs = require('node:fs');
const http = require('node:http');
const path = require('node:path');
const { npms, program, count, room, below, one, chance, wrong, end } = require('./shared.js');

const [pickManifest, npa, semver] = ['npm-pick-manifest', 'npm-package-arg', 'semver'].map(npms);

function answerOf(words) {
    const { status, stdout, stderr } = spawnSync(program, words, { encoding: 'utf8', input: '' });
    return { status, output: stdout, error: stderr };
}

// ---- made documents

const number = () => one([0, 1, 1, 1, 2, 2, 3, 10]);
const version = () => `${number()}.${number()}.${number()}${chance(20) ? `-${one(['alpha', 'beta.1', 'rc.1', 'rc.2', '0'])}` : ''}`;
const day = () => `202${below(4)}-0${1 + below(9)}-1${below(10)}`;
const range = () => one([() => `^${version()}`, () => `~${version()}`, () => `>=${version()}`, () => `<${version()}`,
    () => `>=${version()} <${version()}`, () => `^${version()} || ^${version()}`, () => String(number()),
    () => `${number()}.x`, () => '*', () => ''])();

// A document as a registry serves it. What differs by the rules of npm_pick's README is left out.
function packument(name) {
    const made = { name, 'dist-tags': {}, versions: {}, time: {} };
    for (let left = below(9); left > 0; left -= 1) {
        const key = version();
        made.versions[key] = { name, version: key };
        if (chance(20)) {
            made.versions[key].deprecated = 'it is old';
        }
        if (chance(30)) {
            made.versions[key].engines = { node: one(['>=1', '^2', '>=3', '*']), npm: one(['>=1', '<3', '2.x']) };
        }
        if (chance(90)) {
            made.time[key] = `${day()}T0${below(10)}:00:00.000Z`;
        }
    }
    const keys = Object.keys(made.versions);
    for (const tag of ['latest', 'next']) {
        if (keys.length && chance(80)) {
            made['dist-tags'][tag] = one(keys);
        }
    }
    return made;
}

// Options of the command line, and the same for npm.
function madeOptions() {
    const words = [];
    const options = { nodeVersion: null, npmVersion: null };
    const add = (percent, name, value, set) => {
        if (chance(percent)) {
            words.push(...(chance(50) ? [`--${name}`, value] : [`--${name}=${value}`]));
            set(value);
        }
    };
    add(30, 'before', chance(50) ? day() : `${day()}T12:00:00Z`, (value) => { options.before = value; });
    add(30, 'avoid', range() || '*', (value) => { options.avoid = value; });
    add(30, 'node', `${1 + below(4)}${one(['', '.1', '.1.2'])}`, (value) => { options.nodeVersion = whole(value); });
    add(30, 'npm', `${1 + below(4)}${one(['', '.1', '.1.2'])}`, (value) => { options.npmVersion = whole(value); });
    add(20, 'tag', one(['next', 'latest', 'gone']), (value) => { options.defaultTag = value; });
    return { words, options };
}
const whole = (text) => [...text.split('.'), '0', '0'].slice(0, 3).join('.');

// ---- a version of one document

function picked(document, wanted, options) {
    try {
        return pickManifest(document, wanted, options);
    } catch (error) {
        return null;
    }
}

const file = path.join(room, 'document.json');
for (let at = 0; at < count; at += 1) {
    const document = packument('a');
    fs.writeFileSync(file, JSON.stringify(document));
    const keys = Object.keys(document.versions);
    const wanted = one([range, range, range, version, () => one(['latest', 'next', 'gone', 'a b']),
        () => (keys.length ? one(keys) : version()), () => (keys.length ? `=v${one(keys)}` : version())])();
    const { words, options } = madeOptions();
    const isJson = chance(20);
    const found = picked(document, wanted, options);
    const line = (manifest) => (isJson
        ? JSON.stringify({ avoided: Boolean(manifest._shouldAvoid), version: manifest.version })
        : manifest.version);
    const expected = found ? { status: 0, output: `${line(found)}\n` } : { status: 1, output: '' };
    const answer = answerOf([...words, '--packument', file, ...(isJson ? ['--format=json'] : []), wanted]);
    if (answer.status !== expected.status || answer.output !== expected.output || (answer.status === 0) !== (answer.error === '')) {
        wrong(`a picked version: ${JSON.stringify({ words, wanted, document, expected, answer })}`);
    }
}

// ---- the dependencies of a lock file that are outdated, beside npm outdated

const NAMES = ['a', 'b', 'c', 'd', '@s/e', 'f'];
const PROJECTS = Math.max(30, Math.floor(count / 50));

// A folder with documents, and one with a project: its manifest, its lock file, and the packages that are installed.
function madeProject(folder) {
    fs.rmSync(folder, { recursive: true, force: true });
    const documents = {};
    const write = (place, value) => {
        const whole = path.join(folder, place);
        fs.mkdirSync(path.dirname(whole), { recursive: true });
        fs.writeFileSync(whole, JSON.stringify(value));
    };
    for (const name of NAMES.filter(() => chance(90))) {
        const made = packument(name);
        made.versions['1.0.0'] ??= { name, version: '1.0.0' };
        documents[name] = made;
        write(`mirror/${name}${one(['.json', '/package.json'])}`, made);
    }
    const spec = (name) => one([range, range, () => one(['latest', 'next', 'gone']), version,
        () => one(['github:a/b', './x', 'https://example.com/x.tgz', 'x.TGZ', 'x.tar-gz', '^1 || x@gist.github.com:a']), () => `npm:${one(NAMES)}@${range() || '*'}`,
        () => `^${one(Object.keys(documents[name]?.versions ?? { '1.0.0': {} }))}`])();
    const group = () => Object.fromEntries(NAMES.filter(() => chance(30)).map((name) => [name, spec(name)]));
    const root = { name: 'project', version: '1.0.0', dependencies: group(), devDependencies: group(),
        optionalDependencies: group(), peerDependencies: group() };
    const packages = { '': root };
    const install = (at, names, deeper) => {
        for (const name of names.filter(() => chance(60))) {
            const versions = Object.keys(documents[name]?.versions ?? {});
            const place = `${at}node_modules/${name}`;
            packages[place] = { version: versions.length && chance(80) ? one(versions) : version(), dependencies: group(),
                peerDependencies: chance(30) ? group() : {} };
            write(`project/${place}/package.json`, { name, ...packages[place] });
            if (deeper && chance(30)) {
                install(`${place}/`, NAMES, false);
            }
        }
    };
    install('', NAMES, true);
    write('project/package.json', root);
    write('project/package-lock.json', { name: 'project', version: '1.0.0', lockfileVersion: 3, requires: true, packages });
    return documents;
}

let documents = {};
const server = http.createServer((request, response) => {
    const name = decodeURIComponent(request.url.slice(1).split('?')[0]);
    const found = Object.hasOwn(documents, name) ? documents[name] : undefined;
    response.writeHead(found ? 200 : 404, { 'content-type': 'application/json' }).end(JSON.stringify(found ?? { error: 'not found' }));
});

// ---- what a mirror keeps, beside npm-package-arg, npm-pick-manifest and semver

const bytes = (a, b) => Buffer.compare(Buffer.from(a), Buffer.from(b));

// A text as lines on standard error have it, in printable ASCII.
const shown = (text) => [...Buffer.from(text)].map((byte) => (byte >= 0x20 && byte < 0x7f ? String.fromCharCode(byte)
    : `\\x${byte.toString(16).padStart(2, '0')}`)).join('');

// What npm reads a dependency as; of an alias what it stands for.
function askedBy(name, text) {
    const { subSpec, ...asked } = npa.resolve(name, text, '/');
    return subSpec ?? asked;
}

// The versions that are kept for these specs and installed packages, whether a document lacks something, and what standard error says.
function npmsKept(asks, installed, all, options) {
    const specs = new Map();
    const notes = new Set();
    for (const [name, text] of asks) {
        const { registry, name: real, fetchSpec } = askedBy(name, text);
        if (registry) {
            specs.set(real, [...specs.get(real) ?? [], fetchSpec]);
        } else {
            notes.add(`not from a registry: ${name} (${text})`);
        }
    }
    const names = [...new Set([...specs.keys(), ...installed.map(([name]) => name)])].sort(bytes);
    const kept = names.flatMap((name) => {
        const texts = documents[name] ? specs.get(name) ?? [] : [];
        const keys = texts.map((text) => picked(documents[name], text, options)?.version).filter((key) => key);
        const admitted = Object.keys(documents[name]?.versions ?? {}).filter((key) => all && isPublished(documents[name], key, options)
            && texts.some((text) => semver.satisfies(key, text, { loose: true })));
        const own = installed.filter(([of]) => of === name).map(([, key]) => key);
        return [...new Set([...keys, ...admitted, ...own])].sort((a, b) => semver.compare(a, b) || bytes(a, b)).map((key) => `${name}@${key}`);
    });
    const absent = names.filter((name) => !documents[name]);
    const lacking = installed.filter(([name, key]) => documents[name] && !Object.hasOwn(documents[name].versions, key)).map((one) => one.join('@'));
    const said = [...absent.map((name) => `no document in the folder: ${name}`),
        ...new Set(lacking.map((one) => `installed, but not in the document: ${one}`)), ...notes].sort(bytes);
    return { kept, status: absent.length || lacking.length ? 1 : 0, error: said.map((note) => `npm_pick: ${shown(note)}\n`).join('') };
}

function isPublished(document, key, options) {
    return !options.before || !document.time[key] || new Date(document.time[key]) <= new Date(options.before);
}

const GROUPS = ['dependencies', 'devDependencies', 'optionalDependencies', 'peerDependencies'];

// The dependencies of a manifest or of a package of a lock file. Of one name in two groups both count for a manifest.
const asksOf = (manifest) => GROUPS.flatMap((group) => Object.entries(manifest[group] ?? {}));

// The dependencies of a package of a lock file: of one name the last group counts, and devDependencies do for the root alone.
const asksOfPackage = (folder, asker) => Object.entries(Object.assign({}, asker.peerDependencies, asker.dependencies, asker.optionalDependencies,
    folder === '' ? asker.devDependencies : {}));

const asksOfLock = (lock) => Object.entries(lock.packages).flatMap(([folder, asker]) => asksOfPackage(folder, asker));

// The folder in which a name is found from a folder: its own `node_modules`, or the nearest above.
function foundFrom(lock, folder, name) {
    const place = `${folder}${folder ? '/' : ''}node_modules/${name}`;
    return lock.packages[place] ? place : folder && foundFrom(lock, folder.slice(0, Math.max(0, folder.lastIndexOf('/node_modules/'))), name);
}

// The installed packages, by name and version, for which no dependency is by an address, a repository, a file or a folder.
function installedOf(lock) {
    const elsewhere = new Set(Object.entries(lock.packages).flatMap(([folder, asker]) => asksOfPackage(folder, asker)
        .filter(([name, text]) => !askedBy(name, text).registry).map(([name]) => foundFrom(lock, folder, name))));
    return Object.entries(lock.packages).filter(([folder]) => folder && !elsewhere.has(folder))
        .map(([folder, { version }]) => [folder.split('node_modules/').pop(), version]);
}

// A manifest with white space around its specs, which npm install leaves out and npm outdated does not, and with hosts that npm
// does not know.
function spaced(manifest) {
    const space = () => one(['', ' ', '\t', '\u00a0', '\ufeff', ' \n ']);
    const around = (spec) => (/^npm:/i.test(spec) ? `${spec}${space()}` : `${space()}${spec}${/^[\d^~<>][^@]*$/.test(spec) ? one(['', '', ' || git@x.y:z']) : ''}${space()}`);
    return Object.fromEntries(GROUPS.map((group) => [group,
        Object.fromEntries(Object.entries(manifest[group] ?? {}).map(([name, spec]) => [name, around(spec)]))]));
}

function compareKept(folder) {
    let versions = 0;
    const manifest = path.join(folder, 'project/package.json');
    const lock = path.join(folder, 'project/package-lock.json');
    const wide = path.join(folder, 'spaced.json');
    const read = (file) => JSON.parse(fs.readFileSync(file, 'utf8'));
    const [root, locked] = [read(manifest), read(lock)];
    const [asksOfRoot, asksOfLocked, installedThere] = [asksOf(root), asksOfLock(locked), installedOf(locked)];
    fs.writeFileSync(wide, JSON.stringify(spaced(root)));
    for (const [words, asks, installed = []] of [[['--manifest', manifest], asksOfRoot], [['--lock', lock], asksOfLocked, installedThere],
        [['--manifest', wide], asksOf(read(wide))],
        [['--lock', lock, '--manifest', manifest], [...asksOfRoot, ...asksOfLocked], installedThere]]) {
        const all = chance(50);
        const made = madeOptions();
        const isJson = chance(30);
        const { kept, ...expected } = npmsKept(asks, installed, all, made.options);
        const answer = answerOf([...made.words, '--packuments', path.join(folder, 'mirror'), ...words, '--keep',
            ...(all ? ['--all'] : []), ...(isJson ? ['--format=json'] : [])]);
        expected.output = isJson ? `${JSON.stringify(kept)}\n` : kept.map((line) => `${line}\n`).join('');
        if (answer.output !== expected.output || answer.status !== expected.status || answer.error !== expected.error) {
            wrong(`what is kept: ${JSON.stringify({ words: [...made.words, ...words], all, asks, expected, answer })}`);
        }
        versions += kept.length;
    }
    return versions;
}

// What npm outdated says: a row for each dependency, with its name, and the versions that are current, wanted and latest.
function npmsRows(folder, all) {
    const words = ['outdated', '--json', ...(all ? ['--all'] : []), `--registry=http://127.0.0.1:${server.address().port}`,
        `--cache=${path.join(room, 'cache')}`, '--no-update-notifier', '--fetch-retries=0', '--no-audit', '--omit='];
    return new Promise((resolve) => {
        execFile('npm', words, { cwd: path.join(folder, 'project') }, (error, output, said) => {
            let read;
            try {
                read = JSON.parse(output || '{}');
            } catch (_) {
                read = { error: output };
            }
            if (read.error) {
                resolve({ error: `${JSON.stringify(read.error)} ${said}` });
                return;
            }
            const rows = Object.entries(read).flatMap(([name, found]) => [found].flat().map((row) => ({ name, ...row })));
            resolve({ status: error ? error.code : 0, rows: rows.map(({ name, current, wanted, latest }) =>
                [name, current ?? null, wanted, latest].join(' ')).sort() });
        });
    });
}

function ourRows(folder, all) {
    const answer = answerOf(['--packuments', path.join(folder, 'mirror'), '--lock', path.join(folder, 'project/package-lock.json'),
        '--outdated', ...(all ? ['--all'] : []), '--node', process.version, '--npm', npmVersion, '--format', 'json']);
    const lock = JSON.parse(fs.readFileSync(path.join(folder, 'project/package-lock.json'), 'utf8'));
    const rows = answer.output.split('\n').slice(0, -1).map((line) => JSON.parse(line)).map((row) => {
        // (npm names an alias by its spec, with its name in place of `npm`)
        const asker = lock.packages[row.from];
        const spec = ['devDependencies', 'optionalDependencies', 'dependencies', 'peerDependencies']
            .filter((group) => row.from === '' || group !== 'devDependencies')
            .map((group) => asker[group]?.[row.name]).find((text) => text !== undefined);
        const name = /^npm:/i.test(spec) ? spec.replace('npm', row.name) : row.name;
        return [name, row.current, row.wanted, row.latest].join(' ');
    });
    return { status: answer.status, rows: rows.sort(), error: answer.error };
}

const npmVersion = execSync('npm --version', { encoding: 'utf8' }).trim();
server.listen(0, '127.0.0.1', async () => {
    const folder = path.join(room, 'made');
    let rows = 0;
    let versions = 0;
    for (let at = 0; at < PROJECTS; at += 1) {
        documents = madeProject(folder);
        versions += compareKept(folder);
        for (const all of [false, true]) {
            const found = await npmsRows(folder, all);
            const ours = ourRows(folder, all);
            if (found.error || found.status !== ours.status || found.rows.join('\n') !== ours.rows.join('\n')) {
                fs.cpSync(folder, path.join(room, `wrong-${at}`), { recursive: true });
                wrong(`outdated${all ? ' --all' : ''}, project ${at}: ${JSON.stringify({ found, ours })}`);
            } else {
                rows += ours.rows.length;
            }
        }
    }
    console.log(`${PROJECTS} projects have ${rows} rows as npm outdated has them, and a mirror keeps ${versions} versions for them`);
    server.close();
    end(count + PROJECTS);
});
