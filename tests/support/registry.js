// A registry for npm: a few packages, an advisory, and a yes to whatever is published. It keeps nothing, so two npms that ask it the same
// get the same. Writes its address, and listens until it is ended. It has the packages of a JSON file in place of its own, if there is one:
// `node registry.js [PACKAGES]`.
'use strict';

const { execFileSync } = require('node:child_process');
const { createHash } = require('node:crypto');
const fs = require('node:fs');
const http = require('node:http');
const os = require('node:os');
const path = require('node:path');

const packages = process.argv[2] ? JSON.parse(fs.readFileSync(process.argv[2], 'utf8')) : {
    alpha: {
        'dist-tags': { latest: '2.0.0', old: '1.1.0', next: '2.1.0-rc.1' },
        versions: {
            '1.0.0': { deprecated: 'it is old' }, '1.0.5': {}, '1.1.0': { engines: { node: '>=0.10 <1 || >=4' } },
            '1.2.0-rc.1': {}, '1.2.0': { engines: { node: '<4' } }, '2.0.0': { bin: { alpha: 'run.js' } },
            '2.1.0-rc.1': {},
        },
    },
    beta: {
        'dist-tags': { latest: '1.3.0' },
        versions: {
            '1.0.0': { dependencies: { alpha: '~1.0.0' } }, '1.3.0': { dependencies: { alpha: '^1.0.0' } },
            '1.4.0': { dependencies: { alpha: '>=2' } },
        },
    },
    gamma: {
        'dist-tags': { latest: '3.0.1' },
        versions: { '3.0.1': { peerDependencies: { alpha: '1.x || 2.x' }, funding: 'https://example.com/gamma' } },
    },
    npm: { 'dist-tags': { latest: '99.1.2' }, versions: { '99.1.2': {} } },
};

const advisories = {
    alpha: [{ id: 7, url: 'https://example.com/7', title: 'a fault', severity: 'high', vulnerable_versions: '<1.1.0',
        cwe: [], cvss: { score: 0, vectorString: null } }],
};

const room = fs.mkdtempSync(path.join(os.tmpdir(), 'registry-'));
process.on('exit', () => fs.rmSync(room, { recursive: true, force: true }));
process.on('SIGTERM', () => process.exit(0));

// The tarball of a package: the same bytes each time.
function tarball(name, version, more) {
    const folder = fs.mkdtempSync(path.join(room, 'package-'));
    fs.mkdirSync(path.join(folder, 'package'));
    fs.writeFileSync(path.join(folder, 'package/package.json'), JSON.stringify({ name, version, ...more }));
    fs.writeFileSync(path.join(folder, 'package/run.js'), `#!/usr/bin/env node\nconsole.log('${name} ${version}');\n`, { mode: 0o755 });
    return execFileSync('tar', ['-C', folder, '--sort=name', '--mtime=@0', '--owner=0', '--group=0', '-czf', '-', 'package']);
}

const tarballs = new Map();
function packument(name, address) {
    const { versions, 'dist-tags': tags } = packages[name];
    const all = Object.entries(versions).map(([version, more]) => {
        const file = `${name}-${version}.tgz`;
        if (!tarballs.has(file)) tarballs.set(file, tarball(name, version, more));
        const integrity = `sha512-${createHash('sha512').update(tarballs.get(file)).digest('base64')}`;
        return [version, { name, version, ...more, _id: `${name}@${version}`, dist: { tarball: `${address}/${name}/-/${file}`, integrity } }];
    });
    const time = Object.fromEntries(all.map(([version], i) => [version, `2020-01-0${i + 1}T00:00:00.000Z`]));
    return { _id: name, _rev: '1-a', name, 'dist-tags': tags, versions: Object.fromEntries(all), time, maintainers: [{ name: 'someone', email: 'a@example.com' }] };
}

// What is returned for a request, as JSON or as bytes; `undefined` if there is no such thing.
function answer(method, url, address) {
    if (method === 'PUT' || method === 'DELETE') return { ok: true };
    if (method === 'POST') return url.includes('/advisories/bulk') ? advisories : undefined;
    const [, file] = url.match(/\/-\/([^/]+\.tgz)$/) ?? [];
    if (file) return tarballs.get(file);
    const tags = url.match(/^\/-\/package\/(\w+)\/dist-tags/);
    if (url.startsWith('/-/') && !tags) return url.startsWith('/-/whoami') ? { username: 'someone' } : {};
    const name = tags ? tags[1] : decodeURIComponent(url.slice(1).split('?')[0]);
    if (!Object.hasOwn(packages, name)) return undefined;
    return tags ? packages[name]['dist-tags'] : packument(name, address);
}

const server = http.createServer((request, response) => {
    request.resume().on('end', () => {
        const found = answer(request.method, request.url, `http://127.0.0.1:${server.address().port}`);
        const body = Buffer.isBuffer(found) ? found : JSON.stringify(found ?? { error: 'not found' });
        response.writeHead(found === undefined ? 404 : 200, { 'content-type': 'application/json' }).end(body);
    });
});
server.listen(0, '127.0.0.1', () => console.log(`http://127.0.0.1:${server.address().port}`));
