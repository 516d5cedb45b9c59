// SPDX-License-Identifier: Apache-2.0
// The class Comparator: an operator and a version, as `>=1.2.3`.
'use strict';

const native = require('./native.js');
const { isForeignComparator } = require('./foreign.js');
const { flagsOf, parseOptions } = require('./options.js');
const { REFUSED, keptKey } = require('./kept.js');
const { SemVer, compareVersions, keyOfSemVer } = require('./semver.js');
const { cmp } = require('./versions.js');
const { safeRe, t } = require('./npm/re.js');
const { LONGEST_VERSION } = require('./texts.js');

// What npm takes for the form of a comparator, by which it chooses what it says of a long text.
const [FORM, LOOSE_FORM] = [safeRe[t.COMPARATOR], safeRe[t.COMPARATORLOOSE]];

// The `semver` of a comparator that admits any version.
const ANY = Symbol('SemVer ANY');

// That of npm's own package is another symbol of the same name.
const isAny = (value) => value === ANY || (typeof value === 'symbol' && value.description === ANY.description);

// Marks a constructor's call that passes an operator and a version.
const MADE = Symbol('made');

class Comparator {
    static get ANY() {
        return ANY;
    }

    constructor(comparator, options, made = undefined) {
        const parsed = parseOptions(options);
        let text = comparator;
        if (made === undefined && comparator instanceof Comparator) {
            if (comparator.loose === !!parsed.loose) {
                return comparator;
            }
            text = comparator.value;
        } else if (isForeignComparator(comparator)) {
            text = comparator.value;
        }
        this.options = parsed;
        this.loose = !!parsed.loose;
        if (made === MADE) {
            [this.operator, this.semver] = comparator;
        } else {
            this.parse(text.trim().split(/\s+/).join(' '));
        }
        this.value = this.semver === ANY ? '' : this.operator + this.semver.version;
    }

    parse(text) {
        const [, operator, version] = /^([<>]?=?)\s*(.*)$/s.exec(text);
        const semver = text === '' ? ANY : readVersion(version, text, this.loose);
        this.operator = operator === '=' ? '' : operator;
        this.semver = semver;
    }

    toString() {
        return this.value;
    }

    test(version) {
        if (this.semver === ANY || isAny(version)) {
            return true;
        }
        let read = version;
        if (typeof version === 'string') {
            try {
                read = new SemVer(version, this.options);
            } catch (error) {
                if (!(error instanceof TypeError)) {
                    throw error;
                }
                return false;
            }
        }
        return cmp(read, this.operator, this.semver, this.options);
    }

    // Whether the two have a version in common, as npm decides it.
    intersects(comparator, options) {
        if (isForeignComparator(comparator) && !(comparator instanceof Comparator)) {
            return this.intersects(new Comparator(comparator, comparator.loose), options);
        }
        if (!(comparator instanceof Comparator)) {
            throw new TypeError('a Comparator is required');
        }
        if (this.operator === '') {
            return this.value === '' || admits(comparator.value, this.value, options);
        }
        if (comparator.operator === '') {
            return comparator.value === '' || admits(this.value, comparator.semver, options);
        }
        return meet(this, comparator, parseOptions(options));
    }
}

// The version of a comparator's text.
function readVersion(version, text, isLoose) {
    try {
        return new SemVer(version, isLoose);
    } catch (error) {
        const isForm = error.message?.startsWith('Invalid Version:')
            || (version.length > LONGEST_VERSION && !(isLoose ? LOOSE_FORM : FORM).test(text));
        throw isForm ? new TypeError(`Invalid comparator: ${text}`) : error;
    }
}

// Whether the version satisfies the range of the comparator's text.
function admits(text, version, options) {
    const flags = flagsOf(parseOptions(options));
    const key = keyOfSemVer(new SemVer(version, options));
    const wanted = keptKey(text, flags);
    return wanted !== REFUSED && native.satisfies(key, wanted);
}

// Whether two comparators that are half-lines meet. npm counts what lies below `<0.0.0` as nothing.
function meet(one, other, options) {
    const nothing = options.includePrerelease ? (value) => value === '<0.0.0-0' : (value) => value.startsWith('<0.0.0');
    if (nothing(one.value) || nothing(other.value)) {
        return false;
    }
    if (one.operator[0] === other.operator[0]) {
        return true;
    }
    const [from, to] = one.operator[0] === '>' ? [one, other] : [other, one];
    const order = compareVersions(from.semver, to.semver, options);
    return order < 0 || (order === 0 && from.operator === '>=' && to.operator === '<=');
}

const comparatorOf = (operator, semver, options) => new Comparator([operator, semver], options, MADE);

module.exports = { ANY, Comparator, comparatorOf };
