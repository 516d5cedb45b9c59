// What npm_lock_check writes beside npm's own tree, edge by edge: node lock_files.js PROGRAM COUNT SEED FOLDER KIND. The kinds:
//   made, made-old, made-manifest: COUNT lock files that are made here: of version 3, of version 1, each with a manifest, and of version 3
//     with one
//   rows, rows-old, rows-manifest: the rows of this file; with a manifest also whether the two have the same dependencies
//   installed: each spec and each `engines.node` of the packages of the installed npm
//   large: the lock file large.json of the folder, of COUNT packages
// Those with a manifest also have, on disk, the manifests of packages that links name.
'use strict';

const { spawnSync } = require('node:child_process')
const fs = require('node:fs')
const path = require('node:path')
const { ROOT, npms, program, count, room, below, one: pick, wrong, end } = require('./shared.js')

const [Arborist, npa, { checkEngine }] = ['@npmcli/arborist', 'npm-package-arg', 'npm-install-checks'].map(npms)

const names = ['a', 'b', 'c', 'd', 'e', '@s/a', '@s/b', '@t/c']
const versions = ['1.0.0', '1.2.3', '2.0.0', '2.1.0-rc.1', '0.3.4', '3.0.0-beta', '10.4.2']
const specs = ['^1.0.0', '^1', '~2.0', '>=1 <3', '1.x', '*', '', '2.0.0', '^0.3.0', '^1 || ^2', '>2.1.0-rc.0',
  '1 - 2', '>=3.0.0-alpha', 'npm:@s/b@^1.0.0', 'npm:a', 'npm:c@', 'npm:@t/c', 'npm:b@~2.0', '=1.2.3', 'v1.2.3',
  // Texts that npm and the Rust crate read differently, and white space.
  '<=2', '<=2.1', '>2', '^1 ||', '|| ^9', '||', ' ', ' ^1 ', '\t1.x', '1.x\n', ' * ', '\u00a0^2', 'foo ^1', '01.2.3', '>=1.2.3beta',
  '2.1.0rc.1', '>= 1', '^ 1', '~ 2.0', '1.2.3 - 2', '>4 <3', '>4 <3 || 1', '^1 || a:b', 'npm:', 'npm: ^1', 'npm:a@ ^1', '<0', '>*', 'x',
  'npm:a@github:b/c', '^1 ^2', '= %', '1.2.3+build', '>=2.1.0-rc.0 <2.1.0', '<3.0.0-0', '<=3.0.0-beta']
const engines = ['>=18', '>=18.0.0', '<=20', '<20', '', ' ', '^18 || >=20', '>= 16.x', 'foo', '18 - 20', '~18.1', '>=18.0.0-rc.1',
  '^18.0.0-rc.2 || 21', '>20', '*', 'x || 4', '> 10 < 18', '01', ' >=20 ', '>=18 foo', '18.x.x', '<18.0.0', '^18.0.0']
const nodes = ['18.0.0-rc.1', '18.0.0', '20.11.1', '20.0.0-nightly', '21.0.0-0', '17.9.9']
const groups = ['dependencies', 'optionalDependencies', 'peerDependencies', 'devDependencies']

const group = () => {
  const made = {}
  for (let i = below(4); i > 0; i--) made[pick(names)] = pick(specs)
  return made
}

// Texts that may be before a version, and texts that npm reads as versions or not.
const leads = [0, 1, 2, 3].reduce(all => ['', ...all.flatMap(lead => [...'vV= \t'].map(one => lead + one))], [''])
const written = [...leads.map(lead => `${lead}1.2.3`), ...['1.2.3 ', '1.2.3\n\t', '\ufeff1.2.3\u00a0', '\u2028v\u205f1.2.3', '\r\v\f=1.2.3',
  '\u00851.2.3', '\u180e1.2.3', '1.2.3v', '1.2.3 +b', '1.2.3+b ', '01.2.3', '1.2.3b', '1.2.3-01', '1.2.3--', '1.2', '1.2.3.4', 'v', 'latest',
  '-1.2.3', `${'v'.repeat(251)}1.2.3`, `${'v'.repeat(252)}1.2.3`, `${'\u3000'.repeat(251)}1.2.3`, `${'\u3000'.repeat(252)}1.2.3`,
  `${' '.repeat(126)}1.2.3${' '.repeat(126)}`, `1.2.3-${'a'.repeat(250)}`, `1.2.3-${'a'.repeat(251)}`]]
const withVersions = texts => ({
  '': { dependencies: Object.fromEntries(texts.map((_, i) => [`d${i}`, '>=1.2.3-0'])) },
  ...Object.fromEntries(texts.map((version, i) => [`node_modules/d${i}`, { version }]))
})

const member = () => {
  const made = { version: below(8) ? pick(versions) : pick(written) }
  if (below(2)) made.engines = { node: pick(engines) }
  for (const mark of ['dev', 'optional', 'peer']) if (below(8) === 0) made[mark] = true
  for (const name of groups) if (below(3) === 0) made[name] = group()
  if (made.peerDependencies && below(2)) {
    made.peerDependenciesMeta = {}
    for (const name of Object.keys(made.peerDependencies)) {
      if (below(2)) made.peerDependenciesMeta[name] = { optional: true }
    }
  }
  return made
}

// Packages at the root, below packages, and in workspaces with links to them.
const lockFile = () => {
  const packages = { '': { ...member(), name: 'root' } }
  const folders = ['']
  for (const workspace of ['w/one', 'w/two']) {
    if (below(2)) {
      packages[workspace] = { ...member(), name: path.basename(workspace) }
      packages[`node_modules/${pick(names)}`] = { resolved: workspace, link: true }
      folders.push(workspace)
    }
  }
  for (let i = 4 + below(12); i > 0; i--) {
    const above = pick(folders)
    const folder = `${above ? above + '/' : ''}node_modules/${pick(names)}`
    if (packages[folder]) continue
    packages[folder] = member()
    folders.push(folder)
  }
  return { name: 'root', version: '1.0.0', lockfileVersion: 3, requires: true, packages }
}

// Lock files of version 1, with a manifest. npm leaves out what a package that is not `dev` requires of one that is, so
// all packages of a file are, or none.
const oldMember = (depth, isDev) => {
  const made = { version: pick(versions) }
  if (below(2)) made.requires = group()
  if (below(4) === 0) made.requires = true
  if (below(4) === 0) made.optional = true
  if (below(8) === 0) made.bundled = true
  if (isDev) made.dev = true
  if (below(2)) made.integrity = 'sha512-' + 'A'.repeat(86) + '=='
  if (depth > 0 && below(3) === 0) made.dependencies = oldMembers(below(4), depth - 1, isDev)
  return made
}
const oldMembers = (count, depth, isDev) => {
  const made = {}
  for (let i = count; i > 0; i--) made[pick(names)] = oldMember(depth, isDev)
  return made
}
const oldFile = () => {
  const file = { name: 'root', version: '1.0.0' }
  if (below(4)) file.lockfileVersion = 1
  if (below(2)) file.requires = true
  file.dependencies = oldMembers(4 + below(6), 3, below(4) === 0)
  // A manifest has no marks.
  const { dev, optional, devOptional, peer, ...manifest } = member()
  return { file, manifest: { ...manifest, name: 'root' } }
}

const words = { MISSING: 'missing', INVALID: 'invalid', 'PEER LOCAL': 'peer-local' }

// Rows: the members of `packages`, beside a root.
const at = (version, more) => ({ version, ...more })
const link = resolved => ({ resolved, link: true })
const optional = mark => ({ '': { peerDependencies: { a: '1' }, peerDependenciesMeta: { a: { optional: mark } } } })
const workspaces = (patterns, folder, more) => ({
  '': { workspaces: patterns, devDependencies: { w: '^2' } },
  'node_modules/w': link(folder),
  [folder]: at('1.0.0', { name: 'w', ...more })
})
const rows = [
  // Folders outside the root.
  { '../x': { dependencies: { a: '^1' } }, 'node_modules/a': at('1.0.0') },
  { '../x': { optionalDependencies: { a: '^2' } }, 'node_modules/a': at('1.0.0') },
  { '..': at('1.0.0'), '../x': { dependencies: { a: '1' } }, '../node_modules/a': at('2.0.0') },
  { '': { dependencies: { a: '1' } }, '..': at('1.0.0'), '../node_modules/a': at('1.0.0') },
  { '../x/y': { dependencies: { a: '2' } }, '../x': at('1.0.0'), '../x/node_modules/a': at('1.0.0') },
  // Specs that are accepted too.
  ...['^1', '^3', '', '*', 'x'].map(accepted => ({
    '': { dependencies: { a: '^2' }, acceptDependencies: { a: accepted } }, 'node_modules/a': at('1.0.0')
  })),
  ...[[], null, 'a', { b: '^1' }].map(accepted => ({
    '': { dependencies: { a: '^2' }, acceptDependencies: accepted }, 'node_modules/a': at('1.0.0')
  })),
  { '': { peerDependencies: { a: '^2' }, acceptDependencies: { a: '1' } }, 'node_modules/a': at('1.0.0') },
  // What counts as true.
  ...[true, 'true', 'false', 1, -1, 0.5, [], {}, false, 0, '', null].map(optional),
  // Workspaces that are in a group of the root too.
  workspaces(['w'], 'w'), workspaces(['w'], 'w', { version: '2.1.0-alpha.1' }), workspaces({ packages: ['w'] }, 'w'),
  workspaces(['./w'], 'w'), ...['/w', '//w', './/w', '/./w', '././w'].map(pattern => workspaces([pattern], 'w')),
  ...['/v/*', './/v/**', '/v/w'].map(pattern => workspaces([pattern], 'v/w')), workspaces(['*'], 'w'), workspaces(['*'], 'v/w'), workspaces(['v/*'], 'v/w'),
  workspaces(['v/*'], 'v/u/w'), workspaces(['v/**'], 'v/u/w'), workspaces(['**'], 'v/u/w'), workspaces(['*'], '.w'),
  workspaces(['v/**'], 'v'), workspaces(['v/*'], 'v'), workspaces(['v/**'], 'v/.u/w'), workspaces(['v/**'], 'v/u/.w'), workspaces(['.v/**'], '.v/w'),
  workspaces(['v', 'w'], 'w'), workspaces(['v'], 'w'), workspaces([], 'w'), workspaces(['../w'], '../w'),
  workspaces(['*'], '../w'), workspaces(['**'], '../w'),
  { ...workspaces(['w'], 'w'), 'node_modules/a': { dependencies: { w: '^2' } } },
  // Groups that are null, and links.
  { '': { dependencies: null, peerDependencies: null, optionalDependencies: null, devDependencies: null } },
  ...['w', './w'].map(resolved => ({
    '': { dependencies: { w: '2' } }, 'node_modules/w': link(resolved), w: at('1.0.0')
  })),
  // `npm:` in letters of either case, and before a text that is no name.
  ...['NPM:b@^1', 'nPm:b@^2', 'npm:^1', 'npm:^2', 'npm:1', 'npm:>=1 <3', 'npm:>=1 <2', 'npm:', 'npm:*', 'npm:b'].map(
    spec => ({ '': { dependencies: { a: spec } }, 'node_modules/a': at('2.0.0') })),
  // Versions with leads and white space.
  withVersions(written)
]

// What a JSON object tells: its members in their order.
const told = object => JSON.stringify(Object.fromEntries(Object.entries(object).sort(([a], [b]) => (a < b ? -1 : 1))))

// npm's own check of `engines.node`. An optional package is not asked.
const engineProblems = (file, version) => Object.entries(file.packages).flatMap(([from, member]) => {
  if (member.link || member.optional) return []
  try {
    checkEngine(member, null, version)
    return []
  } catch (error) {
    return [told({ from, name: 'node', problem: 'engine', spec: member.engines.node, version, dev: !!member.dev, optional: false,
      peer: !!member.peer })]
  }
})

// Rows of version 1: the manifest, and the members of `dependencies`.
const asks = spec => ({ dependencies: { a: spec } })
const oldRows = [
  [{}, {}],
  [{ dependencies: { a: '^1', b: '^1' }, devDependencies: { a: '^2' } }, { a: at('1.0.0') }],
  [{ optionalDependencies: { a: '1', b: '1' } }, { b: at('2.0.0') }],
  [{ peerDependencies: { a: '1', b: '1' }, peerDependenciesMeta: { a: { optional: true } } }, {}],
  [{ dependencies: { a: '^2' }, acceptDependencies: { a: '^1' } }, { a: at('1.0.0') }],
  // What packages require, with the nearest package.
  [{}, { a: at('1.0.0', { requires: { b: '^1', c: '^1', d: '^1' } }), b: at('2.0.0'), c: at('1.2.0') }],
  [asks('1'), { a: at('1.0.0', { requires: { b: '1' }, dependencies: { b: at('1.0.0') } }), b: at('2.0.0') }],
  [{ dependencies: { b: '1' } }, { a: at('1.0.0', { dependencies: { b: at('1.0.0') } }) }],
  [{}, { a: at('1.0.0', { dependencies: { b: at('1.0.0', { requires: { c: '2' }, dependencies: { c: at('1.0.0') } }) } }),
    c: at('2.0.0') }],
  [{}, { '@s/a': at('1.0.0', { requires: { '@s/b': '1' }, dependencies: { '@s/b': at('2.0.0') } }) }],
  // `requires` that says nothing, and marks of packages.
  ...[true, false, null, {}].map(requires => [asks('2'), { a: at('1.0.0', { requires }) }]),
  [{}, { a: at('1.0.0', { requires: { b: '1', c: '1' } }), b: at('2.0.0', { optional: true }) }],
  [{}, { a: at('1.0.0', { optional: true, requires: { b: '1', c: '1' } }), b: at('2.0.0', { optional: true }) }],
  [{}, { a: at('1.0.0', { dev: true, requires: { b: '1', c: '1' } }), b: at('2.0.0', { dev: true }) }],
  [asks('1'), { a: at('1.0.0', { bundled: true, requires: { b: '1' }, dependencies: { b: at('2.0.0', { bundled: true }) } }) }],
  // Aliases and repositories. A package with a version of its own has `integrity` too.
  ...['npm:c@1.2.0', 'npm:@s/c@1.2.0', '1.2.0'].flatMap(version => ['^1', 'npm:c@^1', 'npm:c@^2'].map(spec =>
    [asks(spec), { a: at(version, { integrity: 'sha512-' + 'A'.repeat(86) + '==' }) }])),
  ...['git+ssh://git@github.com/b/b.git#0123456789012345678901234567890123456789', 'github:b/b#0123'].map(version =>
    [asks('^1'), { a: at(version, { from: 'github:b/b' }) }]),
  // Tarballs: the address says the version, in `version`, or in `resolved` if neither `integrity` nor `from` confirms that.
  ...['https://r.example/a/-/a-1.2.0.tgz', 'https://r.example/npm/@s/c/-/c-1.2.0.tgz', 'https://r.example/@s%2fc/-/c-2.0.0.tgz', 'file:a-1.2.0.tgz',
    'https://r.example/a-1.2.0.tgz', 'https://r.example/c-1.2.0.tgz', 'https://r.example/a/-/a-1.2.0.tar.gz', 'file:../a-2.0.0-b.tgz'].flatMap(version =>
    [{}, { integrity: 'sha512-' + 'A'.repeat(86) + '==' }, { from: 'a@^1' }].map(more => [asks('^1'), { a: at(version, more) }])),
  ...[{}, { integrity: 'sha512-' + 'A'.repeat(86) + '==' }, { from: '^1' }, { from: 'a@^1' }, { from: 'https://r.example/c' }].flatMap(more =>
    ['1.2.0', '2.0.0', ...more.from === 'a@^1' ? [] : [undefined]].map(version =>
      [asks('^1'), { a: at(version, { resolved: 'https://r.example/c/-/c-1.2.0.tgz', ...more }) }])),
  [asks('^1'), { a: at('1.0.0', { requires: { '@s/b': '^1' } }), '@s/b': at('https://r.example/b-1.2.0.tgz') }]
]

// Rows with a manifest: the manifest, and the members of `packages`.
const installed = { 'node_modules/a': at('1.0.0'), 'node_modules/b': at('1.0.0') }
const manifestRows = [
  [asks('^1'), { '': asks('^1'), ...installed }],
  [asks('^1.0.0'), { '': asks('^1'), ...installed }],
  [asks('^2'), { '': asks('^1'), ...installed }],
  [asks('1'), { '': {}, ...installed }],
  [{}, { '': asks('1'), ...installed }],
  [{ dependencies: { a: '1', b: '2', c: '1' } }, { '': asks('1'), ...installed }],
  // Another group for the same name, and one name in two groups.
  ...['devDependencies', 'optionalDependencies', 'peerDependencies'].flatMap(name => [
    [{ [name]: { a: '2' } }, { '': asks('2'), ...installed }], [asks('2'), { '': { [name]: { a: '2' } }, ...installed }],
    [{ [name]: { a: '1' } }, { '': { [name]: { a: '1' } }, ...installed }],
    [{ [name]: { a: '1', c: '1' } }, { '': { [name]: { a: '1' } }, ...installed }]
  ]),
  [{ dependencies: { a: '1' }, optionalDependencies: { a: '2' } }, { '': { optionalDependencies: { a: '2' } }, ...installed }],
  [{ dependencies: { a: '1' }, optionalDependencies: { a: '2' } }, { '': { optionalDependencies: { a: '1' } }, ...installed }],
  // The dependencies of other packages stay.
  [asks('2'), { '': asks('2'), 'node_modules/a': at('1.0.0', asks('3')), 'node_modules/a/node_modules/a': at('2.0.0') }],
  [{ dependencies: { a: '^2' }, acceptDependencies: { a: '^1' } }, { '': asks('^2'), ...installed }],
  // `overrides` with a rule for all versions of a name: of peers and missing packages too. A rule for a dependency of the
  // root has the root's own spec, or npm refuses it.
  ...[{ b: '2.0.0' }, { b: '^2', '@s/c': '2' }, { b: '3.0.0' }, { b: '', '@s/c': '*' }, { b: ' * ', '@s/c': ' ' }, { b: 'npm:x@2' },
    { '@s/c': '^2', q: '7' }, { a: '^1', b: '>=2' }, { B: '2', s: '2', c: '2' }, { '.': '2' }, {}].map(overrides => [
    { ...asks('^1'), overrides }, {
      '': asks('^1'),
      'node_modules/a': at('1.0.0', { dependencies: { b: '^1', q: '1' }, peerDependencies: { '@s/c': '^1' } }),
      'node_modules/a/node_modules/d': at('1.0.0', { dependencies: { b: '^1' }, acceptDependencies: { b: '3' } }),
      'node_modules/b': at('2.0.0', { optionalDependencies: { '@s/c': '^1', q: '1' } }),
      'node_modules/@s/c': at('2.0.0', { dependencies: { b: '^2' } })
    }]),
  // The manifests of packages that links name: workspaces, in whichever folder, and one that is not there.
  ...[['w', 'w'], ['./w', 'w'], ['packages/w', 'packages/w'], ['../w', '../w'], ['../../w', '../../w'], ['node_modules/b', 'node_modules/b'],
    ['v/node_modules/w', 'v/node_modules/w']].flatMap(([resolved, folder]) =>
    [{ [folder]: { name: 'w', ...at('1.0.0', asks('^2')) } }, { [folder]: { name: 'w', ...at('2.0.0', asks('^1')) } },
      { [folder]: { name: 'w', ...at('2.0.0', { devDependencies: { a: '^2', b: '^1' }, optionalDependencies: { c: '1' } }) } },
      { [folder]: { name: 'w', ...at('1.0.0', { peerDependencies: { a: '^2', c: '1' }, peerDependenciesMeta: { c: { optional: true } } }) } },
      { [folder]: { name: 'w' } }, {}].map(linked => [
      { dependencies: { a: '^1', w: '^1' } },
      { '': { dependencies: { a: '^1', w: '^1' } }, ...installed, 'node_modules/w': link(resolved), v: at('1.0.0'),
        [folder]: at('1.0.0', asks('^1')) },
      linked])),
  // Two links to one package, and a workspace with another dependency.
  [asks('^1'), { '': asks('^1'), ...installed, 'node_modules/v': link('w'), 'node_modules/w': link('w'), w: at('1.0.0') },
    { w: { name: 'w', ...at('1.1.0', asks('^2')) } }],
  [{ dependencies: { v: '1' } }, { '': { dependencies: { v: '1' } }, 'node_modules/v': link('v'), 'node_modules/w': link('w'),
    v: at('1.0.0', { dependencies: { w: '1' } }), w: at('1.0.0') },
  { v: { name: 'v', ...at('1.0.0', { dependencies: { w: '^2' } }) }, w: { name: 'w', ...at('3.0.0') } }],
  [{ workspaces: ['w'], dependencies: { a: '^1' } }, { '': { workspaces: ['w'], dependencies: { a: '^1' } }, ...installed,
    'node_modules/w': link('w'), w: { name: 'w', ...at('1.0.0', asks('^1')) } }, { w: { name: 'w', ...at('1.0.0', asks('^2')) } }]
]

// The member of a lock file for the package in this folder. In version 1 the root has none.
const marksOf = (file, folder) => {
  if (file.packages) return file.packages[folder]
  const names = folder === '' ? [] : folder.slice('node_modules/'.length).split('/node_modules/')
  return names.reduce((member, name) => member.dependencies[name], folder === '' ? {} : file)
}

// npm's problems: those of each edge. A workspace of the root is an edge of its own, which hides that of a group.
const npmProblems = async (folder, file) => {
  const arborist = new Arborist({ path: folder })
  const tree = await arborist.loadVirtual()
  const found = []
  let count = 0
  for (const node of tree.inventory.values()) {
    if (node.isLink) continue
    for (const edge of node.edgesOut.values()) {
      if (edge.type === 'workspace') {
        if (groups.some(name => node.package[name]?.[edge.name] !== undefined)) count++
        continue
      }
      count++
      if (!edge.error) continue
      const marks = marksOf(file, node.location)
      // In version 1 npm calls what a package requires optional if the package that is found is.
      const isOptional = edge.optional && (file.packages || node.isProjectRoot)
      const problem = { from: node.location, name: edge.name, problem: words[edge.error], spec: edge.spec,
        dev: !!marks.dev || edge.dev, optional: !!(marks.optional || isOptional), peer: !!marks.peer || edge.peer }
      if (edge.to) {
        problem.to = edge.to.target.location
        if (edge.to.target.version) problem.version = edge.to.target.version
      }
      found.push(told(problem))
    }
  }
  // Whether npm finds that the root has other dependencies in its manifest than in the lock file.
  return { found, count, isSuspect: !!arborist[Symbol.for('flagsSuspect')] }
}

// npm reads the folders of workspaces, and not the lock file, for their names.
const writeFolders = (root, packages) => {
  for (const [folder, member] of Object.entries(packages)) {
    if (!folder || !member.name || folder.includes('node_modules')) continue
    fs.mkdirSync(path.join(root, folder), { recursive: true })
    fs.writeFileSync(path.join(root, folder, 'package.json'), JSON.stringify(member))
  }
}

// A member of `packages` as a manifest, which has no marks.
const manifestOf = ({ dev, optional, devOptional, peer, ...manifest }) => manifest

const ownMarks = ({ dev, optional, peer } = {}) => Object.fromEntries(Object.entries({ dev, optional, peer }).filter(([, it]) => it))

// Manifests of the packages that links name, of which some are not there, and some have other dependencies than in it.
const linkedManifests = packages => {
  const linked = {}
  for (const { link, resolved } of Object.values(packages)) {
    if (link && below(4)) linked[resolved] = manifestOf(below(3) ? { ...member(), name: path.basename(resolved) } : packages[resolved])
  }
  return linked
}

const writeManifests = (root, linked) => {
  for (const [folder, manifest] of Object.entries(linked)) {
    fs.mkdirSync(path.join(root, folder), { recursive: true })
    fs.writeFileSync(path.join(root, folder, 'package.json'), JSON.stringify(manifest))
  }
}

const oldRowFiles = () => oldRows.map(([manifest, dependencies]) => ({
  manifest: { name: 'root', ...manifest },
  file: { name: 'root', version: '1.0.0', lockfileVersion: 1, requires: true, dependencies }
}))

// A lock file of version 3 with a manifest, and with the manifests of its workspaces and of a package outside the root.
const withManifest = () => {
  const manifest = manifestOf(member())
  const file = lockFile()
  const place = `node_modules/${pick(names)}`
  if (below(2) && !file.packages[place]) {
    file.packages['../x'] = member()
    file.packages[place] = { resolved: '../x', link: true }
    if (below(2)) file.packages[`../x/node_modules/${pick(names)}`] = member()
  }
  const linked = linkedManifests(file.packages)
  // npm refuses a rule that changes a dependency of the root, and leaves workspaces out.
  const isAsked = name => groups.some(group => manifest[group]?.[name] !== undefined)
  if (!Object.keys(file.packages).some(folder => /^(w|\.\.)\//.test(folder))) {
    manifest.overrides = Object.fromEntries(Object.entries(group()).filter(([name]) => !isAsked(name)))
  }
  return { file, manifest: { ...manifest, name: 'root' }, linked }
}

const manifestRowFiles = () => manifestRows.map(([manifest, packages, linked]) => ({
  manifest: { name: 'root', ...manifest },
  file: { name: 'root', version: '1.0.0', lockfileVersion: 3, requires: true, packages },
  // npm compares the root alone.
  isCompared: !linked,
  linked
}))

const rowFiles = () => rows.map(packages => ({
  name: 'root', version: '1.0.0', lockfileVersion: 3, requires: true, packages: { '': {}, ...packages }
}))

// The packages of the installed npm: each spec for a registry, with a package of each of these versions, and each engine.
const installedFile = () => {
  const found = { specs: new Set(), engines: new Set() }
  const walk = folder => {
    for (const entry of fs.readdirSync(folder, { withFileTypes: true })) {
      const file = path.join(folder, entry.name)
      if (entry.isDirectory()) walk(file)
      if (entry.name !== 'package.json') continue
      const member = JSON.parse(fs.readFileSync(file, 'utf8'))
      for (const name of groups) for (const spec of Object.values(member[name] || {})) found.specs.add(spec)
      if (typeof member.engines?.node === 'string') found.engines.add(member.engines.node)
    }
  }
  walk(path.join(ROOT, 'npm', 'node_modules'))
  const isRegistry = spec => {
    try {
      const { type, subSpec } = npa.resolve('a', spec)
      return ['range', 'version'].includes((subSpec || { type }).type)
    } catch {
      return true
    }
  }
  const packages = { '': {} }
  for (const version of ['0.3.4', '1.0.0', '1.2.3', '2.1.0-rc.1', '3.0.0-beta', '4.2.0', '6.0.0', '7.5.4', '10.4.2', '18.0.0']) {
    const asker = { version, dependencies: {} }
    for (const [i, spec] of [...found.specs].filter(isRegistry).entries()) {
      asker.dependencies[`d${i}`] = spec
      packages[`node_modules/v${version}/node_modules/d${i}`] = { version }
    }
    packages[`node_modules/v${version}`] = asker
  }
  for (const [i, node] of [...found.engines].entries()) packages[`node_modules/e${i}`] = { version: '1.0.0', engines: { node } }
  return { name: 'root', version: '1.0.0', lockfileVersion: 3, requires: true, packages }
}

// The lock file with other versions, and with dependencies that are nowhere.
const spoiled = file => {
  for (const [i, member] of Object.values(file.packages).entries()) {
    if (i % 50 === 49) member.version = '0.0.1'
    if (i % 100 === 7) member.dependencies[`nowhere-${i}`] = '^1'
  }
  return file
}

// The lock files of each kind, with a manifest or without.
const alone = files => files.map(file => ({ file }))
const made = make => () => Array.from({ length: count }, make)
const kinds = {
  made: () => alone(made(lockFile)()),
  'made-old': made(oldFile),
  'made-manifest': made(withManifest),
  rows: () => alone(rowFiles()),
  'rows-old': oldRowFiles,
  'rows-manifest': manifestRowFiles,
  installed: () => alone([installedFile()]),
  large: () => alone([spoiled(JSON.parse(fs.readFileSync(path.join(room, 'large.json'), 'utf8')))])
}

const main = async () => {
  const kind = process.argv[6]
  const files = kinds[kind]()
  let problems = 0
  for (const [i, { file, manifest, isCompared, linked }] of files.entries()) {
    const folder = path.join(fs.mkdtempSync(path.join(room, 'lock-')), 'above', 'root')
    fs.mkdirSync(folder, { recursive: true })
    const text = JSON.stringify(file, null, 2)
    fs.writeFileSync(path.join(folder, 'package-lock.json'), text)
    if (linked) writeManifests(folder, linked)
    else if (file.packages) writeFolders(folder, file.packages)
    const beside = path.join(folder, 'package.json')
    if (manifest) fs.writeFileSync(beside, JSON.stringify(manifest))
    const version = file.packages && nodes[i % nodes.length]
    // npm reads the root from its manifest, and also packages that links name, if they are in no `node_modules`.
    // Their marks are those of the lock file.
    const read = Object.entries(linked || {}).filter(([place]) => !place.split('/').includes('node_modules'))
      .map(([place, it]) => [place, { ...it, ...ownMarks(file.packages?.[place]) }])
    const seen = manifest && file.packages
      ? { ...file, packages: { ...file.packages, '': manifest, ...Object.fromEntries(read) } }
      : file
    const npm = await npmProblems(folder, seen)
    if (version) npm.found.push(...engineProblems(seen, version))
    npm.found.sort()
    const run = more => spawnSync(program, [...(version ? ['--node', version] : []), ...(manifest ? ['--manifest', beside] : []), ...more],
      { input: text, encoding: 'utf8', maxBuffer: 1 << 28 })
    const ran = run(['--ignore', 'group', '--outside'])
    const isMismatched = isCompared && / [1-9]\d* mismatches/.test(run([]).stderr)
    fs.rmSync(path.join(folder, '..', '..'), { recursive: true })
    // npm says nothing of addresses.
    const sorted = ran.stdout.split('\n').filter(line => line && JSON.parse(line).problem !== 'source').sort()
    const counts = /^(\d+) packages, (\d+) dependencies/.exec(ran.stderr)
    const counted = Number(counts?.[2])
    problems += npm.found.length
    if (kind === 'large' && Number(counts?.[1]) !== count) wrong(`${counts?.[1]} packages, and not ${count}: ${ran.stderr}`)
    if (isCompared && isMismatched !== npm.isSuspect) {
      wrong(`row ${i}: npm says ${npm.isSuspect ? 'not ' : ''}the same, and this ${isMismatched ? 'not ' : ''}the same`)
    }
    if (counted !== npm.count || JSON.stringify(sorted) !== JSON.stringify(npm.found)) {
      wrong([`lock file ${i}: ${counted} dependencies here, ${npm.count} in npm's tree`,
        ...sorted.filter(line => !npm.found.includes(line)).map(line => `  here alone: ${line}`),
        ...npm.found.filter(line => !sorted.includes(line)).map(line => `  npm alone: ${line}`),
        JSON.stringify({ file, manifest, linked }).slice(0, 20000)].join('\n'))
    }
  }
  if (!problems) wrong('npm finds no problem')
  end(files.length)
}

main()
