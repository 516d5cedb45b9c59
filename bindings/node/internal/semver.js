// SPDX-License-Identifier: Apache-2.0
// The class SemVer, and the keys of values that are passed as versions.
'use strict';

const native = require('./native.js');
const { isForeignSemVer, optionsOfForeign, textWithBuild } = require('./foreign.js');
const { compareIdentifiers } = require('./identifiers.js');
const { parseOptions } = require('./options.js');
const { LONGEST_VERSION, strictText, trimmedVersion, withoutBuild, withoutV } = require('./texts.js');

// What `native.readVersion` returns is 0, or a number of which the last three bits are the form of the version, the next 16 are
// the patch, and then the minor and the major. Where one of these is larger, they are not in it.
const REFUSED = 0;
const IS_TRIPLE = 1;
const LARGE = 4;
const [OF_PATCH, OF_MINOR, OF_MAJOR, BITS] = [2 ** 3, 2 ** 19, 2 ** 35, 0xffff];

// An identifier of digits is a number where JavaScript has that number, as with npm.
function identifierOf(text) {
    const number = Number(text);
    return /^[0-9]+$/.test(text) && number < Number.MAX_SAFE_INTEGER ? number : text;
}

function putNumbers(semVer, text, read) {
    if (read & LARGE) {
        [semVer.major, semVer.minor, semVer.patch] = text.split(/[-+]/, 1)[0].split('.').map(Number);
    } else {
        semVer.major = (read / OF_MAJOR) | 0;
        semVer.minor = (read / OF_MINOR) & BITS;
        semVer.patch = (read / OF_PATCH) & BITS;
    }
}

// Puts the parts of a version, of whose text the library has read this.
function putParts(semVer, text, read) {
    putNumbers(semVer, text, read);
    if (read & IS_TRIPLE) {
        semVer.prerelease = [];
        semVer.build = [];
        semVer.version = text;
        return;
    }
    const version = withoutBuild(text);
    const dash = version.indexOf('-');
    semVer.prerelease = dash < 0 ? [] : version.slice(dash + 1).split('.').map(identifierOf);
    semVer.build = version === text ? [] : text.slice(version.length + 1).split('.');
    semVer.version = version;
}

// Puts the parts of a triple of small numbers, of which the library has read this.
function putTriple(semVer, read) {
    const major = (read / OF_MAJOR) | 0;
    const minor = (read / OF_MINOR) & BITS;
    const patch = (read / OF_PATCH) & BITS;
    semVer.raw = `${headOf(major, minor)}${patch}`;
    semVer.major = major;
    semVer.minor = minor;
    semVer.patch = patch;
    semVer.prerelease = [];
    semVer.build = [];
    semVer.version = semVer.raw;
}

// What no text writes: the keys of such versions, and the text that their fields had.
const held = new WeakMap();

// Mark a constructor's call that passes a key, or what the library has read of a triple of small numbers, and not what a user passed.
const [MADE, TRIPLE] = [Symbol('made'), Symbol('triple')];

class SemVer {
    constructor(version, options, made = undefined) {
        const parsed = parseOptions(options);
        const { loose, includePrerelease } = parsed;
        if (made === TRIPLE) {
            this.options = parsed;
            this.loose = !!loose;
            this.includePrerelease = !!includePrerelease;
            putTriple(this, version);
            return;
        }
        let text = version;
        if (typeof version !== 'string' && made !== MADE) {
            if (version instanceof SemVer && version.loose === !!loose
                && version.includePrerelease === !!includePrerelease) {
                return version;
            }
            text = textOfSemVer(version, parsed);
        }
        if (text.length > LONGEST_VERSION) {
            throw new TypeError(`version is longer than ${LONGEST_VERSION} characters`);
        }
        this.options = parsed;
        this.loose = !!loose;
        this.includePrerelease = !!includePrerelease;
        let key = made === MADE ? version : text.trim();
        let read = native.readVersion(key);
        if (read === REFUSED && loose) {
            key = strictText(key);
            read = native.readVersion(key);
        }
        if (read === REFUSED) {
            throw new TypeError(refusal(text, !!loose));
        }
        this.raw = made === MADE ? native.versionText(key) : text;
        putParts(this, made === MADE ? this.raw : withoutV(key), read);
        if (made === MADE && typeof key !== 'string') {
            held.set(this, { key, text: textOf(this) });
        }
    }

    format() {
        this.version = textWithoutBuild(this);
        return this.version;
    }

    toString() {
        return this.version;
    }

    compare(other) {
        if (!(other instanceof SemVer)) {
            if (typeof other === 'string' && other === this.version) {
                return 0;
            }
            other = new SemVer(other, this.options);
        }
        return compareSemVers(this, other);
    }

    compareMain(other) {
        return compareTriples(this, semVerOf(other, this));
    }

    comparePre(other) {
        return comparePrereleases(this, semVerOf(other, this));
    }

    compareBuild(other) {
        return compareBuilds(this, semVerOf(other, this));
    }
}

// A SemVer stays as it is, and one of another package keeps its own options, and so its build.
const readVersion = (version, options) => (version instanceof SemVer ? version
    : new SemVer(version, isForeignSemVer(version) ? optionsOfForeign(version) : options));
const semVerOf = (version, { options }) => readVersion(version, options);

// The text of an object that is passed for a version. With other options it loses its build, as with npm.
function textOfSemVer(version, { loose, includePrerelease }) {
    if (version instanceof SemVer) {
        return version.version;
    }
    if (isForeignSemVer(version)) {
        const isSame = version.loose === !!loose && version.includePrerelease === !!includePrerelease;
        return isSame ? textWithBuild(version) : version.version;
    }
    throw new TypeError(`Invalid version. Must be a string. Got type "${typeof version}".`);
}

// What npm says of a text that is refused: which number is too large, where the form of the text is right.
function refusal(text, isLoose) {
    const trimmed = text.trim();
    const strict = strictText(trimmed);
    const triple = isLoose || strict === withoutV(trimmed) ? withoutBuild(strict).split('-')[0].split('.') : [];
    const place = triple.findIndex((number) => Number(number) > Number.MAX_SAFE_INTEGER);
    return place < 0 ? `Invalid Version: ${text}` : `Invalid ${['major', 'minor', 'patch'][place]} version`;
}

// What the texts of versions have before the patch, for small numbers, from when it is first asked for: to join the parts of a text
// is most of what `inc` takes.
const [MAJORS, MINORS] = [32, 64];
const heads = new Array(MAJORS * MINORS);

function headOf(major, minor) {
    // A user may have put other values into a SemVer, so these must be numbers, and not only have their texts.
    const isSmall = typeof major === 'number' && (major & MAJORS - 1) === major
        && typeof minor === 'number' && (minor & MINORS - 1) === minor;
    return isSmall ? heads[major * MINORS + minor] ??= `${major}.${minor}.` : `${major}.${minor}.`;
}

// The text of a SemVer as its fields stand, which a user may have changed.
function textWithoutBuild({ major, minor, patch, prerelease }) {
    const triple = `${headOf(major, minor)}${patch}`;
    return prerelease.length === 0 ? triple : `${triple}-${prerelease.join('.')}`;
}
const textOf = (semVer) => `${textWithoutBuild(semVer)}${semVer.build.length ? `+${semVer.build.join('.')}` : ''}`;

const isWritten = ({ major, minor, patch }, text) => text.length <= LONGEST_VERSION
    && Math.max(major, minor, patch) <= Number.MAX_SAFE_INTEGER;

// The key of a SemVer, and its version; and the SemVer of a key, or null.
function keyOfSemVer(semVer) {
    const text = textOf(semVer);
    if (isWritten(semVer, text)) {
        return text;
    }
    const own = held.get(semVer);
    return own !== undefined && own.text === text ? own.key : text;
}
const semVerOfKey = (key, options) => (key === null ? null : new SemVer(key, options, MADE));
const semVerOfTriple = (read, options) => new SemVer(read, options, TRIPLE);

// ---- the order ----

// What `native.compare`, `native.compareBuild` and `native.diff` return from here on where one of the two is no version.
const FIRST_REFUSED = 16;

const LAST_DIGIT = 57;

// Whether an identifier begins with a letter, so that it is no number.
const isWord = (identifier) => typeof identifier === 'string' && identifier.charCodeAt(0) > LAST_DIGIT;
const isDigits = (identifier) => /^\d+$/.test(identifier);

const isText = (identifier) => typeof identifier === 'string' && isDigits(identifier);
const isNumber = (value) => Number.isSafeInteger(value) && value >= 0;

// The order of two numbers of versions. A user may have put other values into a SemVer.
function compareNumbers(one, other) {
    if (!isNumber(one) || !isNumber(other)) {
        return compareIdentifiers(one, other);
    }
    return one === other ? 0 : one < other ? -1 : 1;
}

// The order of two identifiers of digits that are texts, since JavaScript may not have their numbers.
function compareDigits(one, other) {
    const order = native.compareBuild(`0.0.0+${one}`, `0.0.0+${other}`);
    return order < FIRST_REFUSED ? order : compareIdentifiers(one, other);
}

// The order of two lists of identifiers, by the first two that differ.
function compareLists(one, other) {
    const length = Math.min(one.length, other.length);
    for (let i = 0; i < length; i++) {
        const left = one[i];
        const right = other[i];
        if (left !== right) {
            if (isWord(left) && isWord(right)) {
                return left < right ? -1 : 1;
            }
            const areTexts = isText(left) && isText(right);
            const order = areTexts ? compareDigits(left, right) : compareNumbers(left, right);
            if (order !== 0 || !areTexts) {
                return order;
            }
        }
    }
    return Math.sign(one.length - other.length);
}

const compareTriples = (one, other) => compareNumbers(one.major, other.major) || compareNumbers(one.minor, other.minor)
    || compareNumbers(one.patch, other.patch);

// A version without a prerelease is above those with one.
const comparePrereleases = ({ prerelease: one }, { prerelease: other }) => (one.length === 0 || other.length === 0
    ? Math.sign(other.length - one.length) : compareLists(one, other));

const compareBuilds = ({ build: one }, { build: other }) => compareLists(one, other);

// Whether JavaScript has the numbers of a version exactly.
const isExact = ({ major, minor, patch }) => !(Math.max(major, minor, patch) > Number.MAX_SAFE_INTEGER);

// Where the fields of a SemVer are a triple of small numbers, as its text says them: a number that holds these three. Else no number.
function numberOfTriple({ major, minor, patch, prerelease, build, version }) {
    const isTriple = prerelease.length === 0 && build.length === 0 && (major & BITS) === major && (minor & BITS) === minor
        && (patch & BITS) === patch && version === `${headOf(major, minor)}${patch}`;
    return isTriple ? major * OF_MAJOR + minor * OF_MINOR + patch * OF_PATCH : NaN;
}

// The order of two SemVers by their fields; versions of the same text are equal. The library compares the versions that no
// text writes.
function compareSemVers(one, other) {
    if (one.version === other.version) {
        return 0;
    }
    if (!isExact(one) && !isExact(other)) {
        const order = native.compare(keyOfSemVer(one), keyOfSemVer(other));
        if (order < FIRST_REFUSED) {
            return order;
        }
    }
    return compareTriples(one, other) || comparePrereleases(one, other);
}

const compareSemVersWithBuilds = (one, other) => compareSemVers(one, other) || compareBuilds(one, other);

// The library compares texts; other values are compared as SemVers. Throws if one of the two is no version.
function compareBy(one, other, options, call, compareThem) {
    if (typeof one === 'string' && typeof other === 'string') {
        const order = call(trimmedVersion(one), trimmedVersion(other));
        if (order < FIRST_REFUSED) {
            return order;
        }
    }
    return compareThem(new SemVer(one, options), new SemVer(other, options));
}

const compareVersions = (one, other, options) => compareBy(one, other, options, native.compare, compareSemVers);

// The build counts where two versions are equal.
const compareWithBuilds = (one, other, options) => compareBy(one, other, options, native.compareBuild,
    compareSemVersWithBuilds);

module.exports = {
    FIRST_REFUSED, SemVer, identifierOf, readVersion, semVerOfKey, semVerOfTriple, keyOfSemVer, numberOfTriple, compareSemVers,
    compareSemVersWithBuilds, compareVersions, compareWithBuilds,
};
