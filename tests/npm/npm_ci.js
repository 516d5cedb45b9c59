// The status of npm_lock_check --manifest beside what `npm ci` checks before it installs: it builds the tree of package.json and the lock
// file, and looks for each of its packages in the lock file: node npm_ci.js PROGRAM COUNT SEED FOLDER. The packages come from a registry
// in this process. COUNT lock files are made by npm, each from a manifest and its workspaces, of which one is then changed. Some pairs
// differ as docs/DIFFERENCES.md says, and none otherwise.
'use strict';

const { spawn } = require('node:child_process')
const { createHash } = require('node:crypto')
const fs = require('node:fs')
const http = require('node:http')
const path = require('node:path')
const { npms, program, count, room, below, one: pick, wrong, end } = require('./shared.js')

const [Arborist, mapWorkspaces, semver] = ['@npmcli/arborist', '@npmcli/map-workspaces', 'semver'].map(npms)
const validateLockfile = npms('../lib/utils/validate-lockfile.js')

const groups = ['dependencies', 'devDependencies', 'optionalDependencies', 'peerDependencies']
const published = {
  a: { '1.0.0': {}, '1.2.0': { dependencies: { b: '^1' } }, '2.0.0': { dependencies: { b: '^2', c: '^1' } } },
  b: { '1.0.0': {}, '1.1.0': { dependencies: { c: '^1.0.0' } }, '2.0.0': { dependencies: { c: '^2' } } },
  c: { '1.0.0': {}, '1.4.2': {}, '2.0.0': {}, '3.0.0-rc.1': {} },
  d: { '1.0.0': { peerDependencies: { c: '1 || 2' } }, '2.0.0': { peerDependencies: { c: '^2' } } },
  e: { '1.0.0': { optionalDependencies: { c: '^1' } }, '1.1.0': { optionalDependencies: { b: '1' } } },
  '@s/f': { '0.3.4': { dependencies: { '@s/g': '*' } } },
  '@s/g': { '1.0.0': {} }
}
const names = Object.keys(published)
const specs = ['^1.0.0', '^1', '~1.2', '1.x', '*', '', '1.0.0', '>=1 <3', '^2', '^1 || ^2']

// Of two packages with the same integrity npm takes one for the other.
const integrity = (name, version) => `sha512-${createHash('sha512').update(`${name}@${version}`).digest('base64')}`
const tarball = (address, name, version) => `${address}/${name}/-/${name.split('/').pop()}-${version}.tgz`
const packument = (name, address) => ({
  name,
  'dist-tags': { latest: Object.keys(published[name]).filter(version => !version.includes('-')).pop() },
  versions: Object.fromEntries(Object.entries(published[name]).map(([version, more]) =>
    [version, { name, version, ...more, dist: { tarball: tarball(address, name, version), integrity: integrity(name, version) } }]))
})
const serve = () => new Promise(resolve => {
  const server = http.createServer((request, response) => {
    const name = decodeURIComponent(request.url.slice(1))
    response.statusCode = published[name] ? 200 : 404
    response.setHeader('content-type', 'application/json')
    response.end(JSON.stringify(published[name] ? packument(name, `http://localhost:${server.address().port}`) : {}))
  })
  server.listen(0, () => resolve(server))
})

const specOf = name => (name === '@s/f' ? pick(['*', '^0.3.0']) : pick(specs))
const group = most => Object.fromEntries(Array.from({ length: below(most) }, () => {
  const name = pick(names)
  return [name, specOf(name)]
}))
const member = () => {
  const made = {}
  for (const name of groups) if (below(name === 'dependencies' ? 1 : 3) === 0) made[name] = group(4)
  return made
}

// A root, perhaps with workspaces in `w` and below `packages`. One in four has no name, and then that of its folder.
const workspace = folder => ({ ...(below(4) ? { name: path.basename(folder) } : {}), version: '1.0.0', ...(below(2) ? member() : {}) })
const makeProject = () => {
  const project = { '': { name: 'root', version: '1.0.0', ...member() } }
  if (below(3)) {
    project[''].workspaces = pick([['w', 'packages/*'], ['/w', './packages/**'], ['packages/*'], { packages: ['packages/**', 'w'] },
      ['packages/*', '!packages/two'], ['packages/*', 'packages/@s/*'], ['./w', 'packages/@s/inner', 'packages/two']])
    for (const folder of ['w', 'packages/one', 'packages/two', 'packages/@s/inner']) {
      if (below(2)) project[folder] = workspace(folder)
    }
  }
  return project
}

// One change of the manifest of the root, or of a workspace.
const changes = [
  manifest => {
    const name = pick(names)
    for (const group of groups) if (manifest[group]?.[name] !== undefined) manifest[group][name] = specOf(name)
  },
  manifest => {
    const from = pick(groups)
    const to = pick(groups)
    const name = pick(Object.keys(manifest[from] || { c: 0 }))
    if (manifest[from]?.[name] === undefined) return
    const spec = manifest[from][name]
    delete manifest[from][name]
    manifest[to] = { ...manifest[to], [name]: spec }
  },
  manifest => {
    const from = pick(groups)
    if (manifest[from]) delete manifest[from][pick(Object.keys(manifest[from])) || '']
  },
  manifest => {
    const to = pick(groups)
    const name = pick(names)
    manifest[to] = { ...manifest[to], [name]: specOf(name) }
  },
  manifest => { manifest.name = pick(['renamed', '@t/renamed', 'a', 'one', 'two']) },
  manifest => { delete manifest.name },
  manifest => { manifest.version = pick(['1.0.0', '1.1.0', '2.0.0']) },
  (manifest, project) => {
    const folder = pick(['packages/three', 'packages/one/four', 'packages/@s/five', 'packages/node_modules/six', 'packages/.seven', 'v'])
    project[folder] = workspace(folder)
  },
  (manifest, project) => {
    project[''].workspaces = pick([['w'], ['packages/*'], ['w', 'packages/*', 'v'], ['*'], ['packages/**'], ['packages/**', '!packages/one/**'],
      ['packages/@s/*'], ['v', './/packages/@s/five', 'packages//two', 'w/../packages/one']])
  },
  (manifest, project) => {
    const folder = pick(Object.keys(project))
    if (folder) delete project[folder]
  }
]
const changed = project => {
  const made = JSON.parse(JSON.stringify(project))
  for (let i = 1 + below(2); i > 0; i--) pick(changes)(made[pick(Object.keys(made))], made)
  return made
}

const write = (root, project) => {
  for (const [folder, manifest] of Object.entries(project)) {
    fs.mkdirSync(path.join(root, folder), { recursive: true })
    fs.writeFileSync(path.join(root, folder, 'package.json'), JSON.stringify(manifest))
  }
}

// What `npm ci` says, or `undefined` if it fails otherwise, as for peers that cannot be met.
const npmErrors = async (root, options) => {
  const arborist = new Arborist({ ...options, path: root })
  try {
    await arborist.loadVirtual()
    const inventory = new Map(arborist.virtualTree.inventory)
    await arborist.buildIdealTree()
    return validateLockfile(inventory, arborist.idealTree.inventory)
  } catch (error) {
    return error.code === 'ERESOLVE' || error.code === 'EDUPLICATEWORKSPACE' ? undefined : [error.message]
  }
}

const run = root => new Promise(resolve => {
  const child = spawn(program, ['--manifest', path.join(root, 'package.json'), '--format', 'json', path.join(root, 'package-lock.json')])
  let text = ''
  child.stdout.on('data', data => { text += data })
  child.on('close', status => resolve({ status, text, lines: text.split('\n').filter(line => line).map(line => JSON.parse(line)) }))
})

// Whether docs/DIFFERENCES.md says that the two differ here. Where `npm ci` refuses: a pattern of workspaces that is not read, or an
// optional dependency of the root or a workspace that is not installed. Where it does not: an optional dependency of the
// wrong version, for which the registry may have no other, a package that is no workspace any more, a package of the wrong
// version where the root has a right one, or one of the workspace's version in the place of a workspace.
const isKnown = async (root, project, lock, errors, lines) => {
  const workspaces = [...await mapWorkspaces({ cwd: root, pkg: project[''] })].map(([name, folder]) => [name, path.relative(root, folder)])
  const isLeft = folder => folder && !folder.includes('node_modules') && !workspaces.some(([, other]) => other === folder)
  const isElsewhere = ({ problem, name, spec, to }) => problem === 'invalid' && to !== `node_modules/${name}` &&
    semver.satisfies(lock.packages[`node_modules/${name}`]?.version, spec)
  const isReplaced = ({ problem, from, spec, version }) => problem === 'invalid' && !from && spec.startsWith('file:') &&
    version === project[spec.slice(5)]?.version
  if (!errors.length) {
    return lines.every(line => line.problem === 'group' || line.optional || isLeft(line.from) || isElsewhere(line) || isReplaced(line))
  }
  const patterns = project[''].workspaces?.packages || project[''].workspaces || []
  const isInstalled = (folder, name) => [`node_modules/${name}`, `${folder}/node_modules/${name}`].some(place => lock.packages[place])
  return patterns.some(pattern => pattern.startsWith('!')) || !['', ...workspaces.map(([, folder]) => folder)].every(folder =>
    Object.keys(project[folder]?.optionalDependencies || {}).every(name => isInstalled(folder, name)))
}

const main = async () => {
  const server = await serve()
  const options = { registry: `http://localhost:${server.address().port}/`, cache: path.join(room, 'cache'), audit: false, packumentCache: new Map() }
  let pairs = 0, refused = 0, known = 0
  for (let i = 0; pairs < count && i < 10 * count; i++) {
    const root = path.join(room, `p${i}`)
    const project = makeProject()
    write(root, project)
    const arborist = new Arborist({ ...options, path: root })
    try {
      await arborist.buildIdealTree()
    } catch {
      continue
    }
    const text = String(arborist.idealTree.meta)
    const other = changed(project)
    fs.rmSync(root, { recursive: true })
    write(root, other)
    fs.writeFileSync(path.join(root, 'package-lock.json'), text)
    const errors = await npmErrors(root, options)
    if (errors !== undefined) {
      pairs++
      if (errors.length) refused++
      const ran = await run(root)
      if (ran.status < 2 && ran.status !== (errors.length ? 1 : 0) && await isKnown(root, other, JSON.parse(text), errors, ran.lines)) known++
      else if (ran.status !== (errors.length ? 1 : 0)) {
        wrong([`pair ${i}: status ${ran.status}, and npm ci: ${errors.join('; ') || 'nothing'}`, JSON.stringify(project), JSON.stringify(other), ran.text].join('\n'))
      }
    }
    fs.rmSync(root, { recursive: true })
  }
  server.close()
  console.log(`npm ci refuses ${refused} of ${pairs} pairs, and ${known} differ as docs/DIFFERENCES.md says`)
  if (!refused || refused === pairs) wrong('npm ci refuses none of them, or all')
  end(pairs)
}

main()
