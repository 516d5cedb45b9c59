// What npm_pick::pick picks beside what npm's npm-pick-manifest picks, on made documents and on those of the installed packages:
// node picks.js PROGRAM COUNT SEED, where the program is npm_answers.
'use strict'
const { execFileSync } = require('child_process')
const fs = require('fs')
const path = require('path')
const { ROOT, npms, program, count, seed, wrong, end } = require('./shared.js')

const [pickManifest, semver, npa] = ['npm-pick-manifest', 'semver', 'npm-package-arg'].map(npms)
const isObject = value => typeof value === 'object' && value !== null && !Array.isArray(value)
const isVersion = key => semver.valid(key, true) !== null
const tagsOf = packument => (isObject(packument['dist-tags']) ? packument['dist-tags'] : {})
// The lists of versions of a document: those that can be picked, that are staged, and that are restricted.
const MEMBERS = ['versions', 'stagedVersions', 'policyRestrictions']
const listOf = (packument, name) => {
  const member = packument[name]
  return name === 'versions' ? member : isObject(member) ? member.versions : undefined
}
const listsOf = packument => MEMBERS.map(name => listOf(packument, name)).filter(isObject)
const allKeys = packument => listsOf(packument).flatMap(Object.keys)
const keyCase = (key, tail = {}) => ({ packument: { name: 'a', versions: { [key]: { version: key } } }, wanted: '*', ...tail })
const withTime = time => ({
  packument: { name: 'a', time: { '1.0.0': time }, versions: { '1.0.0': { version: '1.0.0' } } }, wanted: '*',
})

const isDated = time => typeof time === 'string' && /^\d{4}-\d\d-\d\dT\d\d:\d\d:\d\d(\.\d+)?Z$/.test(time)
// How npm reads a text, or its error.
const readBy = (name, text) => { try { return npa.resolve(name, text).type } catch (error) { return error.code || 'OTHER' } }
const PICKED = ['version', 'range', 'tag', 'EINVALIDTAGNAME']

// Where npm gives another result: the name of a rule, which cases it covers, and an example with the results of npm and of npm_pick.
// crates/npm_pick/README.md has the rules by these names.
const RULES = [
  {
    name: 'equal versions',
    covers: ({ packument }) => {
      const keys = [...new Set(allKeys(packument))].filter(isVersion).sort(semver.compareLoose)
      return keys.some((key, at) => at > 0 && semver.compareLoose(keys[at - 1], key) === 0)
    },
    example: [{ packument: { name: 'a', versions: { '1.0.0+b': { version: '1.0.0+b' }, '1.0.0+a': { version: '1.0.0+a' } } },
      wanted: '*' }, '1.0.0+b', '1.0.0+a'],
  },
  {
    name: 'a time in another form',
    covers: ({ packument }) => Object.values(isObject(packument.time) ? packument.time : {}).some(time => time && (isDated(time)
      ? Number.isNaN(Date.parse(time)) ? time.endsWith(':60Z') : new Date(time).toISOString().slice(0, 19) !== time.slice(0, 19)
      : !Number.isNaN(Date.parse(time)))),
    example: [withTime('2020-01-01'), '1.0.0', '!ENOVERSIONS'],
  },
  {
    name: 'a manifest that counts as false',
    covers: ({ packument }) => listsOf(packument).some(list => Object.values(list).some(value => !value)),
    example: [{ packument: { name: 'a', versions: { '1.0.0': null } }, wanted: '1.0.0' }, '!ETARGET', '1.0.0'],
  },
  {
    name: 'a manifest without its version',
    covers: ({ packument }) => listsOf(packument).some(list => Object.entries(list).some(([key, value]) => value && value.version !== key)),
    example: [{ packument: { name: 'a', versions: { '1.0.0': { version: '2.0.0' } } }, wanted: '1', avoid: '2' }, '*2.0.0', '1.0.0'],
  },
  {
    name: 'a tag that names no text',
    covers: ({ packument }) => Object.values(tagsOf(packument)).some(tag => typeof tag !== 'string'),
    example: [{ packument: { name: 'a', 'dist-tags': { next: ['1.0.0'] }, versions: { '1.0.0': { version: '1.0.0' } } },
      wanted: 'next' }, '1.0.0', '!ETARGET'],
  },
  {
    name: 'an empty text',
    covers: ({ packument, avoid }) => avoid === '' || allKeys(packument).includes(''),
    example: [keyCase('1.0.0', { avoid: '' }), '1.0.0', '*1.0.0'],
  },
  {
    name: 'an empty text beside another default tag',
    covers: ({ wanted, tag }) => wanted === '' && tag !== undefined && !['tag', 'version'].includes(readBy('a', tag)),
    example: [{ packument: { name: 'a', 'dist-tags': { '^1': '1.0.0-a' }, versions: { '1.0.0-a': { version: '1.0.0-a' } } }, wanted: '',
      tag: '^1' }, '!ETARGET', '1.0.0-a'],
  },
  {
    name: 'members of every object',
    covers: ({ packument, wanted, tag = '' }) => allKeys(packument).concat(Object.values(tagsOf(packument)), wanted, tag)
      .some(key => key in Object.prototype),
    example: [{ packument: { name: 'a', time: {}, versions: { constructor: { version: 'constructor' } } }, wanted: '*' },
      '!ENOVERSIONS', '!ETARGET'],
  },
  {
    name: 'members of every object',
    covers: ({ tag = '' }) => tag in Object.prototype,
    example: [keyCase('1.0.0', { wanted: '^1', tag: 'constructor' }), '!OTHER', '1.0.0'],
  },
  {
    name: 'a tag that is missing',
    covers: ({ packument }) => allKeys(packument).includes('undefined'),
    example: [keyCase('undefined', { wanted: 'next' }), 'undefined', '!ETARGET'],
  },
  {
    name: 'zeros before a number above 2^53',
    covers: ({ wanted }) => /\b0\d{16}/.test(wanted),
    example: [keyCase('1.0.0-09007199254740993', { wanted: '1.0.0-09007199254740993' }), '1.0.0-09007199254740993', '!ETARGET'],
  },
  {
    name: 'a name that no package can have',
    covers: ({ packument }) => readBy(packument.name, '*') === 'EINVALIDPACKAGENAME',
    example: [{ packument: { name: '_a', versions: { '1.0.0': { version: '1.0.0' } } }, wanted: '1.0.0' }, '!EINVALIDPACKAGENAME', '1.0.0'],
  },
  {
    name: 'a location or an alias',
    covers: ({ wanted }, npm, ours) => !PICKED.includes(readBy('a', wanted)) && ours === '!EINVALIDTAGNAME',
    example: [keyCase('1.0.0', { wanted: '1.0.0 || a.tgz' }), '!OTHER', '!EINVALIDTAGNAME'],
  },
  {
    name: 'a list in place of an object',
    covers: ({ packument }) => MEMBERS.map(name => listOf(packument, name)).concat(MEMBERS.concat('dist-tags', 'time').map(name => packument[name]))
      .some(value => value && !isObject(value)),
    example: [{ packument: { name: 'a', versions: ['a'] }, wanted: '*' }, '!ETARGET', '!ENOVERSIONS'],
  },
  {
    name: 'no release beside those to avoid',
    covers: (_, npm) => npm === '>>undefined',
    example: [keyCase('1.0.0-a', { wanted: '1.0.0-a', avoid: '1', avoidStrict: true }), '>>undefined', '!ETARGET'],
  },
]

// ---- what npm picks

function npmAnswer ({ packument, wanted, tag, before, avoid, avoidStrict, includeStaged, node, npm }) {
  const options = { nodeVersion: node || null, npmVersion: npm || null, avoidStrict, includeStaged }
  if (tag !== undefined) options.defaultTag = tag
  if (before !== undefined) options.before = before
  if (avoid !== undefined) options.avoid = avoid
  try {
    const picked = pickManifest(packument, wanted, options)
    const outside = picked._outsideDependencyRange ? (picked._isSemVerMajor ? '>>' : '>') : ''
    return (picked._shouldAvoid ? '*' : '') + outside + picked.version
  } catch (error) {
    return '!' + (error.code || 'OTHER')
  }
}

const CODES = {
  NoTag: 'ETARGET', NoVersion: 'ETARGET', NoneInRange: 'ETARGET', Avoided: 'ETARGET', NoVersions: 'ENOVERSIONS',
  Wanted: 'EINVALIDTAGNAME', Forbidden: 'E403',
}
const MARKS = { ' avoided': '*', ' outside': '>', ' major': '>>' }

// An answer as npmAnswer writes npm's.
function coded (answer) {
  if (Object.hasOwn(CODES, answer)) return '!' + CODES[answer]
  const word = Object.keys(MARKS).find(word => answer.endsWith(word))
  return word ? MARKS[word] + answer.slice(0, -word.length) : answer
}

function ourAnswers (cases) {
  const asked = ({ packument, wanted, ...options }) => ['npm_pick::pick, in full', JSON.stringify(packument), JSON.stringify(options), wanted]
  const input = cases.map(it => JSON.stringify(asked(it)) + '\n').join('')
  const output = execFileSync(program, [], { input, encoding: 'utf8', maxBuffer: 1 << 30 })
  return output.split('\n').slice(0, -1).map(line => coded(JSON.parse(line)))
}

// ---- generated cases

let state = seed >>> 0
function below (limit) { // mulberry32
  state = (state + 0x6d2b79f5) >>> 0
  let t = state
  t = Math.imul(t ^ (t >>> 15), t | 1)
  t ^= t + Math.imul(t ^ (t >>> 7), t | 61)
  return ((t ^ (t >>> 14)) >>> 0) % limit
}
const one = list => list[below(list.length)]
const maybe = (chance, make) => (below(100) < chance ? make() : undefined)
const put = (object, key, value) => { if (value !== undefined) Object.defineProperty(object, key, { value, enumerable: true, writable: true, configurable: true }) }

const number = () => one([0, 1, 1, 2, 3, 10])
const prerelease = () => one(['alpha', 'beta.1', 'rc.1', 'rc.2', '0', 'x'])
const version = () => `${number()}.${number()}.${number()}` + (below(4) ? '' : '-' + prerelease())
const oddKey = () => one(['no', '1.2', 'v1.2.3', ' 1.0.0', '=1.1.1', '1.0.0+a', '1.0.0+b', '01.1.1', '1.2.3beta', '__proto__', 'constructor', ''])
const key = () => (below(12) ? version() : oddKey())
const range = () => one([
  () => '^' + version(), () => '~' + version(), () => '>=' + version(), () => '<' + version(), () => '<=' + version(),
  () => '>=' + version() + ' <' + version(), () => version() + ' - ' + version(), () => '^' + version() + ' || ^' + version(),
  () => String(number()), () => number() + '.' + number(), () => number() + '.x', () => '*', () => '*', () => '', () => ' ', () => 'x',
])()
const time = () => one([
  () => `202${below(4)}-0${1 + below(9)}-1${below(10)}T0${below(10)}:00:00.000Z`, () => `202${below(4)}-0${1 + below(9)}-1${below(10)}T0${below(10)}:00:00.000Z`,
  () => `202${below(4)}-0${1 + below(9)}-1${below(10)}T0${below(10)}:00:00Z`, () => one(['no time', '', null, false, 0, {}, true, '2020-01-01', 2021, 'Jan 1 2021', '2021-06-30T23:59:60Z',
    '2021-06-30T24:00:00Z', '2021-02-30T00:00:00.000Z', '2021-02-32T00:00:00.000Z']),
])
const truth = () => one([true, false, null, 0, -0, 1, 0.5, '', 'old', [], {}, 'false'])
const engine = () => one([() => '>=' + version(), () => '^' + number(), () => '*', () => 'no range', () => truth(), () => '>=1 <3'])()

function manifest (version) {
  if (below(200) === 0) return one([null, 0, '', 'text', 7, [], true])
  const made = { version }
  put(made, 'deprecated', maybe(25, truth))
  put(made, 'engines', maybe(30, () => {
    if (below(12) === 0) return one([null, [], 'node', 7, '', ['node >= 4']])
    const engines = {}
    put(engines, 'node', maybe(80, engine))
    put(engines, 'npm', maybe(30, engine))
    return engines
  }))
  return made
}

function packument () {
  const made = { name: 'a' }
  const keys = Array.from({ length: below(9) }, key)
  const all = {}
  for (const key of keys) put(all, key, manifest(key))
  put(made, 'versions', below(60) ? all : one([null, [], 'no', 7, undefined]))
  for (const [name, chance] of [['stagedVersions', 25], ['policyRestrictions', 25]]) {
    put(made, name, maybe(chance, () => {
      const list = {}
      for (let left = below(4); left > 0; left--) {
        const of = keys.length && below(2) ? one(keys) : key()
        keys.push(of)
        put(list, of, manifest(of))
      }
      return below(20) ? { versions: list, message: 'no' } : one([null, [], 'no', 7, {}, { versions: null }, { versions: [] }, { versions: 'no' }])
    }))
  }
  const tag = () => (keys.length && below(6) ? one(keys) : one([version(), 'no', 'constructor', 7, null]))
  const tags = {}
  put(tags, 'latest', maybe(80, tag))
  put(tags, 'next', maybe(50, tag))
  put(tags, 'beta', maybe(20, tag))
  put(made, 'dist-tags', below(40) ? tags : one([null, [], 'no', undefined]))
  put(made, 'time', maybe(60, () => {
    const times = { created: '2019-01-01T00:00:00.000Z' }
    for (const key of keys.concat(Object.values(tags).filter(tag => typeof tag === 'string'))) put(times, key, maybe(85, time()))
    return below(40) ? times : one([null, [], 'no', 7])
  }))
  return [made, keys]
}

function generated () {
  const [made, keys] = packument()
  const own = keys.length ? one(keys) : version()
  const made_case = { packument: made, wanted: one([
    range, range, range, range, version, () => own, () => own, () => '^' + own, () => '=v' + own, () => own + '+build',
    () => one(['latest', 'next', 'beta', 'gone', 'a b', 'a/b', ' latest', 'npm:a@1', 'a.tgz', 'valueOf', '@a']),
    () => one(['next ', '* ', '\ufefflatest', '\u0085latest', '\u00a0next', '^1 x/y', own + ' || a.tgz', 'npm:a@1 || ' + own, 'NPM:a', 'b.TGZ',
      'b.tar-gz', own + ' || b.tAr gz', 'b.targz', '^1 || git@x.y:z', 'x@y:z', 'git@gist.github.com:a', own + ' || x@gist.github.com:a', '.a', '_a',
      'c:1', '^1 || c:1', '~/a', 'git+ssh:a', '#1', 'a@1', '1.0.0-09007199254740993', '%61']),
  ])() }
  put(made_case, 'tag', maybe(15, () => one(['next', 'beta', 'gone', 'next', 'beta', 'constructor', '', '^1', 'a b', 'a/b', own])))
  put(made_case, 'before', maybe(40, () => `202${below(4)}-0${1 + below(9)}-15T00:00:00.000Z`))
  put(made_case, 'avoid', maybe(35, () => one([range(), range(), 'no range', '>=' + version() + ' <' + version(), '^' + own])))
  put(made_case, 'avoidStrict', maybe(50, () => true))
  put(made_case, 'includeStaged', maybe(50, () => true))
  put(made_case, 'node', maybe(60, () => version()))
  put(made_case, 'npm', maybe(30, () => version()))
  return made_case
}

// ---- documents of the installed packages

function manifestsBelow (folder, found) {
  let entries
  try { entries = fs.readdirSync(folder, { withFileTypes: true }) } catch (_) { return }
  for (const entry of entries) {
    const place = path.join(folder, entry.name)
    if (entry.isDirectory()) manifestsBelow(place, found)
    if (entry.name !== 'package.json') continue
    try {
      const manifest = JSON.parse(fs.readFileSync(place, 'utf8'))
      if (isObject(manifest) && typeof manifest.name === 'string' && isVersion(manifest.version)) found.push(manifest)
    } catch (_) { }
  }
}

function installed () {
  const found = []
  for (const folder of [ROOT, '/usr/share/nodejs']) manifestsBelow(folder, found)
  const documents = new Map()
  for (const manifest of found) {
    const document = documents.get(manifest.name) || { name: manifest.name, 'dist-tags': {}, versions: {} }
    document.versions[manifest.version] = manifest
    document['dist-tags'].latest = manifest.version
    documents.set(manifest.name, document)
  }
  const specs = new Map()
  for (const { dependencies } of found) {
    for (const [name, spec] of Object.entries(dependencies || {})) {
      if (documents.has(name)) specs.set(name + ' ' + spec, [name, spec])
    }
  }
  const cases = [...specs.values()].map(([name, wanted]) => ({ packument: documents.get(name), wanted, node: '18.0.0', npm: '10.0.0' }))
  for (const packument of documents.values()) cases.push({ packument, wanted: '*', node: '12.0.0' })
  return cases
}

// ---- the comparison

const examples = RULES.map(rule => rule.example[0])
ourAnswers(examples).forEach((ours, at) => {
  const { name, covers, example: [it, npm, wanted] } = RULES[at]
  const found = npmAnswer(it)
  const covered = covers(it, found, ours)
  if (!covered || found !== npm || ours !== wanted) {
    wrong(`the example of '${name}': npm ${found}, npm_pick ${ours}, covered ${covered}`)
  }
})

function compare (cases, what) {
  const used = {}
  let covered = 0
  ourAnswers(cases).forEach((ours, at) => {
    const npm = npmAnswer(cases[at])
    if (npm === ours) return
    const rule = RULES.find(rule => rule.covers(cases[at], npm, ours))
    if (rule) {
      covered++
      used[rule.name] = (used[rule.name] || 0) + 1
    } else wrong(`npm ${npm}, npm_pick ${ours}: ${JSON.stringify(cases[at])}`)
  })
  console.log(`${what}: ${cases.length} cases, ${covered} of them differ as a rule says: ${JSON.stringify(used)}`)
}

compare(installed(), 'documents of the installed packages')
for (let done = 0; done < count; done += 10000) {
  compare(Array.from({ length: Math.min(10000, count - done) }, generated), 'generated documents')
}
end(count)
