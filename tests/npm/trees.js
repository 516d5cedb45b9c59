// npm's own trees of made projects, and its judgement of lock files that stand beside them: `node trees.js PROJECTS`, a file with a list of
// { folder, documents, lock }: a folder with manifests, the documents of a registry by name, and a lock file for the folder, or null. Writes
// a line of JSON a project, in order: { npm: { outcome, versions, places }, faults }, where `faults` is null if there is no lock file.
// npm does not end on some projects, so a worker goes over them, and another one goes on after a project that took 20 seconds.
'use strict';

const fs = require('node:fs');
const http = require('node:http');
const path = require('node:path');
const { Worker, isMainThread, parentPort, workerData } = require('node:worker_threads');

const { npms } = require('./shared.js');

const LIMIT = 20000;
const Arborist = npms('@npmcli/arborist');
const projects = JSON.parse(fs.readFileSync(process.argv[2], 'utf8'));

// What npm finds wrong with a tree: dependencies that are missing or not met, and packages that nobody needs.
function faultsOf(tree) {
    const found = [];
    for (const node of tree.inventory.values()) {
        if (node.extraneous && !node.isProjectRoot) found.push(`${node.location} is extraneous`);
        for (const edge of node.edgesOut.values()) {
            if (edge.error) found.push(`${node.location} asks for ${edge.name} ${edge.spec}: ${edge.error}`);
        }
    }
    return found;
}

function packagesOf(tree) {
    const nodes = [...tree.inventory.values()].filter((node) => !node.isProjectRoot && !node.isLink && !node.isWorkspace);
    return nodes.map((node) => [node.location, `${node.packageName}@${node.version}`]);
}

async function ideal(options) {
    try {
        const tree = await new Arborist(options).buildIdealTree();
        const faults = faultsOf(tree);
        const packages = packagesOf(tree);
        return {
            outcome: faults.length ? 'invalid' : 'tree', faults, places: packages.map((one) => one.join(' ')).sort(),
            versions: [...new Set(packages.map(([, version]) => version))].sort(),
        };
    } catch (error) {
        return { outcome: error.code ?? error.message };
    }
}

// The project's lock file as npm reads it.
async function judged(options, lock) {
    const file = path.join(options.path, 'package-lock.json');
    fs.writeFileSync(file, JSON.stringify(lock));
    const faults = faultsOf(await new Arborist(options).loadVirtual());
    fs.rmSync(file);
    return faults;
}

async function answer(project, registry, tell) {
    const cache = path.join(project.folder, 'cache');
    const options = { path: project.folder, registry, cache, audit: false, fund: false, fetchRetries: 0, replaceRegistryHost: 'never' };
    tell({ faults: project.lock ? await judged(options, project.lock) : null });
    tell({ npm: await ideal(options) });
    fs.rmSync(cache, { recursive: true, force: true });
}

function documentOf(url) {
    const [, at, name] = /^\/(\d+)\/(.*)$/.exec(decodeURIComponent(url)) ?? [];
    return projects[at]?.documents[name];
}

function work() {
    const server = http.createServer((request, response) => {
        const found = documentOf(request.url);
        response.writeHead(found ? 200 : 404, { 'content-type': 'application/json' }).end(JSON.stringify(found ?? { error: 'not found' }));
    });
    server.listen(0, '127.0.0.1', async () => {
        for (let at = workerData; at < projects.length; at += 1) {
            await answer(projects[at], `http://127.0.0.1:${server.address().port}/${at}/`, (found) => parentPort.postMessage(found));
        }
        server.close();
    });
}

// Goes over the projects from the one at this place on.
function goOn(at) {
    if (at >= projects.length) return;
    const worker = new Worker(__filename, { argv: process.argv.slice(2), workerData: at });
    let timer;
    let told = {};
    const tell = (found) => {
        console.log(JSON.stringify({ ...told, ...found }));
        told = {};
        at += 1;
    };
    const wait = () => {
        clearTimeout(timer);
        if (at >= projects.length) return;
        timer = setTimeout(async () => {
            await worker.terminate();
            tell({ npm: { outcome: 'does not end' } });
            goOn(at);
        }, LIMIT);
    };
    worker.on('message', (found) => {
        if (found.npm) tell(found); else told = found;
        wait();
    });
    worker.on('error', (error) => { throw error; });
    wait();
}

if (isMainThread) goOn(0); else work();
