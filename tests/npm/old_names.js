// Which package npm_lock_check audits in each folder of lock files of version 1 beside npm's own reading of them: node old_names.js PROGRAM
// COUNT SEED FOLDER, on the rows of this file, and on COUNT packages that are made here. Each package that npm has a version of must be
// hit under npm's name and version.
'use strict';

const { spawnSync } = require('node:child_process')
const fs = require('node:fs')
const path = require('node:path')
const { npms, program, count, room, below, one: pick, wrong, end } = require('./shared.js')

const [Shrinkwrap, semver] = ['@npmcli/arborist/lib/shrinkwrap.js', 'semver'].map(npms)

const integrity = 'sha512-' + 'A'.repeat(86) + '=='
const folders = ['a', 'b', 'lodash', '@s/a', '@s/lodash']
const files = ['a-1.2.0.tgz', 'a-1.2.0.tgz', 'a-1.2.0-b.tgz', 'a-x-1.0.0.tgz', 'a-.tgz', 'a-1.2.0.tar.gz', 'b-2.0.0.tgz', 'lodash-4.17.11.tgz']
const paths = ['a', 'b', 'lodash', '@s/a', '@s/lodash', '@s%2fa', '@s%2Flodash', '@t/b', 'x/a', 'x/@s/a', '-/a', '@s/-/a', '@s%2fx/a']
const hosts = ['https://r/', 'http://r/', 'https://@r/', 'https://@s/', 'https://u:p@r/', 'https://r:80/', 'https:/r/', 'https:///r/',
  'https:////@s/', 'https://r//', 'HTTPS://r/', 'https://r/npm/', 'https://r/@t/']
const ends = ['', '', '', '', '?x', '#x', '?/@s/lodash/-/lodash-4.17.11.tgz', '#/@s/a/-/a-1.2.0.tgz', '#/a/-/a-1.2.0.tgz',
  '?a#/x/a-1.2.0.tgz', '?/a-1.2.0.tgz', '?b/-/b-2.0.0.tgz', '/', '//']
const address = () => [
  () => pick(hosts) + pick(paths) + '/-/' + pick(files) + pick(ends), () => pick(hosts) + pick(paths) + '/-/' + pick(files) + pick(ends),
  () => pick(hosts) + pick(['', '-/', '/-/', 'a/-', '@s/a']) + pick(files) + pick(ends),
  () => pick(['file:', './', '/x/', 'file:../', 'file:@s/a/-/', 'file:b/a/-/']) + pick(files)
][below(4)]()
const versions = ['1.0.0', '1.2.0', '4.17.11', 'npm:c@1.0.0', 'npm:@s/c@2.0.0', 'git+ssh://git@github.com/b/b.git#0123']
const froms = ['4.17.11', '^1', 'a@^1', 'lodash@4.17.11', 'latest', 'npm:c@1.0.0', 'npm:@s/c@1.0.0', 'npm:c@github:b/c', 'workspace:^',
  'catalog:', 'jsr:1', 'link:../x', 'ftp://x/y', 'github:b/b', 'git+ssh://git@r.example/b/b.git', 'https://r/c', true]
const made = () => {
  const entry = {}
  if (below(5)) entry.version = below(2) ? pick(versions) : address()
  if (below(2)) entry.resolved = address()
  if (below(2)) entry.from = below(4) ? pick(froms) : address()
  if (!below(3)) entry.integrity = integrity
  return [pick(folders), entry]
}

const lodash = 'https://registry.npmjs.org/lodash/-/lodash-4.17.11.tgz'
const rows = [
  ['lodash', { version: '4.17.11', resolved: lodash.replace('//', '//@') }],
  ['lodash', { version: '4.17.11', resolved: lodash + '?/@s/lodash/-/lodash-4.17.11.tgz' }],
  ['lodash', { version: '4.17.11', resolved: lodash + '#/@s/lodash/-/lodash-4.17.11.tgz' }],
  ['lodash', { version: lodash + '/' }],
  ['@s/a', { version: 'file:@s/a/-/a-1.2.0.tgz' }],
  ['@s/a', { version: 'file:vendor/a/-/a-1.2.0.tgz', integrity }],
  ['lodash', { from: '4.17.11' }],
  ['lodash', { from: 'npm:c@1.0.0' }],
  ['lodash', { version: '4.17.11', from: 'workspace:^', resolved: lodash.replace('.11', '.21') }],
  ['lodash', { version: '4.17.11', from: 'npm:c@github:b/c', resolved: lodash.replace('.11', '.21') }]
]

const main = async () => {
  const entries = [...rows, ...Array.from({ length: count }, made)]
  // Each is in a package of its own.
  const dependencies = Object.fromEntries(entries.map(([name, entry], i) =>
    [`h${i}`, { version: '1.0.0', integrity, dependencies: { [name]: entry } }]))
  const text = JSON.stringify({ name: 'root', version: '1.0.0', lockfileVersion: 1, requires: true, dependencies })
  fs.writeFileSync(path.join(room, 'package-lock.json'), text)
  const { data } = await Shrinkwrap.load({ path: room })
  const npm = entries.map(([name], i) => {
    const { name: other, version } = data.packages[`node_modules/h${i}/node_modules/${name}`]
    return { name: other || name, version: semver.valid(version, true) }
  })
  const names = new Set(npm.map(({ name }) => name))
  const advisories = path.join(room, 'advisories.json')
  fs.writeFileSync(advisories, JSON.stringify(Object.fromEntries([...names].map(name =>
    [name, [{ id: 1, severity: 'low', title: 'all', vulnerable_versions: '>=0.0.0-0' }]]))))
  const ran = spawnSync(program, ['--advisories', advisories], { input: text, encoding: 'utf8', maxBuffer: 1 << 28 })
  const lines = ran.stdout.split('\n').filter(line => line).map(line => JSON.parse(line))
  const hits = new Map(lines.filter(line => line.advisories).map(hit => [hit.folder, hit]))
  let compared = 0
  for (const [i, [name, entry]] of entries.entries()) {
    if (!npm[i].version) continue
    compared++
    const hit = hits.get(`node_modules/h${i}/node_modules/${name}`)
    if (hit && hit.name === npm[i].name && semver.valid(hit.version, true) === npm[i].version) continue
    wrong(`${name}: ${JSON.stringify(entry)}: npm ${npm[i].name} ${npm[i].version}, here ${hit?.name} ${hit?.version}`)
  }
  if (compared < rows.length) wrong(`only ${compared} packages have a version`)
  end(entries.length)
}

main()
