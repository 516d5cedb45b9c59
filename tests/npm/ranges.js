// Ranges as npm_semver::parse_range reads them beside those of npm's own semver, on made texts and versions, on all texts of up to
// four characters and on the texts of the installed packages: node ranges.js PROGRAM COUNT SEED, where the program is semver_answers.
'use strict'
const { execFileSync } = require('child_process')
const fs = require('fs')
const path = require('path')
const { ROOT, npms, program, count: size, below: random, one: pick, wrong, end } = require('./shared.js')

const semver = npms('semver')

// Where npm gives another result: the name of a rule, which texts it covers, and an example: a text, a version, the options,
// and the letters of npm and of npm_semver::parse_range. docs/DIFFERENCES.md has the rules by these names.
const pieces = text => text.split('||')
const anyPiece = (text, test) => pieces(text).some(piece => test.test(piece))
const STAR_WORD = /(^|[\s<>=~^v])([xX*]|>=\s*0|$)/
const STRICT = {}
const LOOSE = { loose: true }
const many = (count, text) => text.repeat(count)
const RULES = [
  {
    name: 'a number near the limit',
    covers: text => /[0-9]{16}/.test(text),
    example: ['^9007199254740991', '9007199254740991.0.0', STRICT, 'x', 'y'],
  },
  {
    name: 'marks before a partial',
    covers: text => /v[v=\s]|=\s*=|(^|[\s|])=\s*\S+\s+-\s|\s-\s+=/.test(text),
    example: ['vv1.2.3', '1.2.3', STRICT, 'x', 'y'],
  },
  {
    name: 'a `=` after a prerelease or a build that ends with `v`',
    covers: (text, version, options) => options.loose && /[^\s|]v=(\s|$)/.test(text),
    example: ['1.2.3-v= 1', '1.0.0', LOOSE, 'x', 'y'],
  },
  {
    name: 'a star beside other characters',
    covers: text => /[^\s|.<>=~^v]\*|\*[^\s|.]/.test(text),
    example: ['1.2.3*', '1.2.3', STRICT, 'y', 'x'],
  },
  {
    name: 'a hyphen for a prerelease',
    covers: (text, version, options) => options.loose && /-($|[\s|.+])/.test(text),
    example: ['1.2.3-', '1.2.3--', LOOSE, 'y', 'x'],
  },
  {
    name: 'a digit for a prerelease',
    covers: (text, version, options) => options.loose && /\.\d\d+\./.test(text),
    example: ['1.2.34.5', '1.2.3-4.5', LOOSE, 'y', 'x'],
  },
  {
    name: 'a build before a hyphen',
    covers: (text, version, options) => options.includePrerelease && /\+[^\s|]*\s+-\s/.test(text),
    example: ['1.2.3+5 - 2', '1.2.3-0', { includePrerelease: true }, 'n', 'y'],
  },
  {
    name: 'zeros before the zero of a caret',
    covers: (text, version, options) => options.loose && /\^[v=\s]*0+\.?0*\.?0/.test(text),
    example: ['^00.2.3', '0.9.0', LOOSE, 'y', 'n'],
  },
  {
    name: 'all versions beside others',
    covers: (text, version, options) => (options.loose || pieces(text).length > 1) && anyPiece(text, STAR_WORD),
    example: ['>=0.0.0 || 1.0.0-a', '1.0.0-a', STRICT, 'n', 'y'],
  },
  {
    name: 'at least 0.0.0',
    covers: (text, version, options) => !options.includePrerelease && /^0\.0\.0-/.test(version) && /\.0+-?[0-9a-zA-Z-]/.test(text),
    example: ['>=0.0.0 <=0.0.0-a', '0.0.0-a', STRICT, 'y', 'n'],
  },
  {
    name: 'a partial above 256 bytes',
    covers: text => /[^\s|]{257}/.test(text),
    example: [many(256, 'v') + '1', '1.0.0', STRICT, 'y', 'x'],
  },
  {
    name: 'leading zeros',
    covers: (text, version, options) => options.loose && /0{240}/.test(text),
    example: [many(253, '0'), '0.1.0', LOOSE, 'x', 'y'],
  },
  {
    name: 'a prerelease of 251 characters without its hyphen',
    covers: (text, version, options) => options.loose && /[^\s|]{256}/.test(text),
    example: ['~1.2.3' + many(251, 'a'), '1.2.3', LOOSE, 'x', 'y'],
  },
]

// ---- generated texts

const NUMBERS = ['0', '0', '0', '1', '1', '1', '2', '2', '3', '10', 'x', 'X', '*']
const number = () => random(40) ? pick(NUMBERS) : pick(['01', '00', '9007199254740991', '9007199254740992', ''])
const EXTRAS = ['', '', '', '-a', '-0', '-1', '-beta.2', '-rc.1', '-a.01', 'alpha', 'x', '-a.b+5', '+5', '-0a', '-01', '-', '-a..b', '+']
const partial = () => {
  let text = number()
  if (random(5)) {
    text += '.' + number()
    if (random(4)) {
      text += '.' + number() + pick(EXTRAS)
    }
  }
  return random(25) ? text : pick(['v', '=', 'V', 'vv', 'v ', '==']) + text
}
const OPERATORS = ['', '', '', '>=', '>', '<', '<=', '=', '~', '~>', '^', '^', '>= ', '< ', '~ ', '^ ', '> ', '<= ', '~> ', '= ', '> =', '=<']
const blank = () => random(20) ? ' ' : pick(['  ', '\t', '\n', ' \r\n', '\f', '\v', '\u00a0', '\u2003', '\ufeff', ' \u3000'])
const WORDS = ['foo', '-', '|', '&&', ',', '>', '~', 'latest', '1.2.3.4', '>=<1', '~>=1.2', '1.2.3<2', '- 1', '1 -', '1.2.3-', '*1', '1*']
// Signs with blanks between or none, before a partial: `~ >= 1`, `> =1`.
const SIGNS = ['<', '>', '=', '>=', '<=', '~', '~>', '^', 'v']
const signs = () => {
  let text = pick(SIGNS)
  for (let i = random(3); i > 0; i--) {
    text += pick(['', ' ', ' ']) + pick(SIGNS)
  }
  return text + pick(['', ' ', ' '])
}
const lead = () => random(12) ? pick(OPERATORS) : signs()
// Digits after a patch, as in `1.2.3.4` and `1.2.34.5`.
const tail = () => random(60) ? '' : '.' + pick(['0', '4', '10', 'x', 'a'])
const word = () => random(30) ? lead() + partial() + tail() : pick(WORDS)
// Most texts are short, and one of a hundred has up to twenty words or pieces.
const count = few => random(100) ? random(few) : random(20)
const piece = () => {
  if (!random(6)) {
    return partial() + blank() + '-' + blank() + partial()
  }
  const words = []
  for (let i = random(15) ? 1 + count(3) : 0; i > 0; i--) {
    words.push(word())
  }
  let text = words.join(blank())
  text = random(12) ? text : blank() + text
  return random(12) ? text : text + blank()
}
const rangeText = () => {
  let text = piece()
  let more = random(4) ? 0 : 1 + count(3)
  for (; more > 0; more--) {
    text += pick(['||', ' || ', '|| ', ' ||', '|||']) + piece()
  }
  return text
}
const NUMBER = ['0', '0', '1', '1', '2', '3', '10']
const versionText = () => `${pick(NUMBER)}.${pick(NUMBER)}.${pick(NUMBER)}` +
  pick(['', '', '', '-a', '-0', '-beta.2', '-beta.3', '-rc.1', '-1', '-a.1', '-alpha'])

// ---- short texts

// Each text of at most four of these characters, with a version.
const ALPHABET = '~^><=v1x.-* |'
const SHORT_VERSIONS = ['0.0.0', '1.0.0', '1.1.0', '2.0.0', '1.0.0-0']
function shortTexts() {
  const texts = []
  let longest = ['']
  for (let length = 1; length <= 4; length++) {
    longest = longest.flatMap(text => [...ALPHABET].map(character => text + character))
    texts.push(...longest)
  }
  return texts.map((text, i) => [text, SHORT_VERSIONS[i % SHORT_VERSIONS.length]])
}

// ---- texts of the installed packages

function installed(folder, found) {
  for (const entry of fs.readdirSync(folder, { withFileTypes: true })) {
    const place = path.join(folder, entry.name)
    if (entry.isDirectory()) {
      installed(place, found)
    } else if (entry.name === 'package.json') {
      add(place, found)
    }
  }
}

function add(place, found) {
  let data
  try {
    data = JSON.parse(fs.readFileSync(place, 'utf8'))
  } catch {
    return
  }
  const tables = [data.engines, data.dependencies, data.devDependencies, data.peerDependencies, data.optionalDependencies]
  for (const table of tables) {
    for (const text of Object.values(table && typeof table === 'object' ? table : {})) {
      if (typeof text === 'string' && !text.includes('\0')) {
        found.add(text)
      }
    }
  }
}

const VERSIONS = ['0.0.0', '0.0.1', '0.1.0', '0.10.0', '1.0.0', '1.2.3', '2.0.0', '4.17.21', '8.0.0', '10.12.0', '14.17.0',
  '16.0.0', '16.14.0', '18.0.0', '18.0.0-rc.1', '18.17.0', '20.5.0', '20.0.0-0', '22.0.0', '1.0.0-beta.1', '4.0.0-a', '7.0.0-rc.2']

// ---- npm's letter

function npmRange(text, options) {
  try {
    return new semver.Range(text, options)
  } catch {
    return null
  }
}

function letter(range, version) {
  if (range === null) {
    return 'x'
  }
  return range.test(version) ? 'y' : 'n'
}

// ---- comparison

// `y` or `n` where the range is read, `x` where its text is refused, and `?` for any other answer.
const letterOf = (answer) => answer.startsWith('NoValidRanges at ') ? 'x' : { true: 'y', false: 'n' }[answer] || '?'

function answers(form, versions, pairs) {
  const call = ([text, version]) => JSON.stringify(['npm_semver::parse_range, satisfies', text, `${form} ${versions}`, version])
  const written = execFileSync(program, { input: pairs.map(call).join('\n') + '\n', encoding: 'utf8', maxBuffer: Infinity })
  return written.trimEnd().split('\n').map(line => letterOf(JSON.parse(line))).join('')
}

function compare(name, pairs) {
  const counts = new Map(RULES.map(rule => [rule.name, 0]))
  let agreed = 0
  let admitted = 0
  for (const form of ['strict', 'loose']) {
    for (const versions of ['releases', 'prereleases']) {
      const options = { loose: form === 'loose', includePrerelease: versions === 'prereleases' }
      const letters = answers(form, versions, pairs)
      if (letters.length !== pairs.length) {
        throw new Error(`${letters.length} letters for ${pairs.length} pairs`)
      }
      pairs.forEach(([text, version], i) => {
        const wanted = letter(npmRange(text, options), version)
        if (wanted === letters[i]) {
          agreed++
          admitted += wanted === 'y' ? 1 : 0
          return
        }
        const rule = RULES.find(rule => rule.covers(text, version, options))
        if (rule) {
          counts.set(rule.name, counts.get(rule.name) + 1)
          return
        }
        wrong(`${form} ${versions}: ${JSON.stringify(text)} ${version}: npm ${wanted}, here ${letters[i]}`)
      })
    }
  }
  console.log(`${name}: ${agreed} agree, ${admitted} of them admit`)
  for (const [rule, count] of counts) {
    console.log(`  ${rule}: ${count}`)
  }
  return admitted
}

// The examples of the rules: the letters that they say, and no rule without its example.
for (const { name, covers, example: [text, version, options, npm, here] } of RULES) {
  const form = options.loose ? 'loose' : 'strict'
  const versions = options.includePrerelease ? 'prereleases' : 'releases'
  const found = [letter(npmRange(text, options), version), answers(form, versions, [[text, version]])]
  if (found[0] !== npm || found[1] !== here || !covers(text, version, options)) {
    wrong(`the example of a rule: ${name}: npm ${found[0]}, here ${found[1]}`)
  }
}

const generated = []
for (let i = 0; i < size; i++) {
  generated.push([rangeText(), versionText()])
}
const found = new Set()
installed(ROOT, found)
const texts = [...found].sort().filter(text => text.length < 2000)
const real = texts.flatMap(text => VERSIONS.map(version => [text, version]))
const short = shortTexts()
const admitted = [compare(`generated, ${size} pairs`, generated), compare(`installed, ${texts.length} texts`, real),
  compare(`short, ${short.length} texts`, short)]
if (admitted[0] * 50 < size || admitted[1] === 0 || admitted[2] === 0) {
  wrong('too few pairs admit: the comparison says nothing')
}
end(size + short.length)
