// SPDX-License-Identifier: Apache-2.0
// Every function, each called with texts and options: versions `v` and `w`, ranges `r` and `s`, a list of versions, an
// operator, a release type, an identifier and its base, and options `o`. What is compared is all that a user sees of the
// result.
'use strict';

const { createNpm } = require('./npm.js');

const npm = createNpm();

const OPTIONS = [undefined, true, { loose: true }, { includePrerelease: true }, {},
    { loose: true, includePrerelease: true }, { rtl: true }, { rtl: true, includePrerelease: true },
    { rtl: true, loose: true }, { rtl: true, loose: true, includePrerelease: true }];

// All fields of a version.
const fields = (version) => version && [version.version, version.raw, version.major, version.minor, version.patch,
    [...version.prerelease], version.build, String(version), version.loose, version.includePrerelease, version.options];

// The build of the version is left out: here it has none in a Comparator that a Range has made. The options too: in npm
// they are those with which the text was first read.
const comparatorFields = ({ operator, value, loose, semver }) => [operator, value, loose, semver.version,
    semver.loose, semver.major, semver.minor, semver.patch, semver.prerelease];
const rangeFields = (range) => [range.raw, range.range, range.format(), String(range), range.loose,
    range.includePrerelease, range.set.map((one) => one.map(({ value }) => value))];

const calls = {
    valid: (semver, { v, o }) => semver.valid(v, o),
    clean: (semver, { v, o }) => semver.clean(v, o),
    parse: (semver, { v, o }) => fields(semver.parse(v, o)),
    SemVer: (semver, { v, o }) => fields(new semver.SemVer(v, o)),
    major: (semver, { v, o }) => semver.major(v, o),
    minor: (semver, { v, o }) => semver.minor(v, o),
    patch: (semver, { v, o }) => semver.patch(v, o),
    prerelease: (semver, { v, o }) => semver.prerelease(v, o),
    coerce: (semver, { v, o }) => fields(semver.coerce(v, o)),
    inc: (semver, { v, release, identifier, base, o }) => semver.inc(v, release, o, identifier, base),
    'inc, without options': (semver, { v, release, identifier, base }) => semver.inc(v, release, identifier, base),
    'SemVer.inc': (semver, { v, release, identifier, base, o }) =>
        fields(new semver.SemVer(v, o).inc(release, identifier, base)),
    'SemVer.inc, again and again': (semver, { v, again, o }) => {
        const version = new semver.SemVer(v, o);
        return again.map((words) => fields(version.inc(...words)));
    },
    diff: (semver, { v, w }) => semver.diff(v, w),
    compare: (semver, { v, w, o }) => semver.compare(v, w, o),
    rcompare: (semver, { v, w, o }) => semver.rcompare(v, w, o),
    compareLoose: (semver, { v, w }) => semver.compareLoose(v, w),
    compareBuild: (semver, { v, w, o }) => semver.compareBuild(v, w, o),
    'SemVer.compare': (semver, { v, w, o }) => new semver.SemVer(v, o).compare(w),
    'SemVer.compareMain': (semver, { v, w, o }) => new semver.SemVer(v, o).compareMain(w),
    'SemVer.comparePre': (semver, { v, w, o }) => new semver.SemVer(v, o).comparePre(w),
    'SemVer.compareBuild': (semver, { v, w, o }) => new semver.SemVer(v, o).compareBuild(w),
    eq: (semver, { v, w, o }) => semver.eq(v, w, o),
    neq: (semver, { v, w, o }) => semver.neq(v, w, o),
    gt: (semver, { v, w, o }) => semver.gt(v, w, o),
    gte: (semver, { v, w, o }) => semver.gte(v, w, o),
    lt: (semver, { v, w, o }) => semver.lt(v, w, o),
    lte: (semver, { v, w, o }) => semver.lte(v, w, o),
    cmp: (semver, { v, w, operator, o }) => semver.cmp(v, operator, w, o),
    sort: (semver, { list, o }) => semver.sort([...list], o),
    rsort: (semver, { list, o }) => semver.rsort([...list], o),
    satisfies: (semver, { v, r, o }) => semver.satisfies(v, r, o),
    test: (semver, { v, r, o }) => new semver.Range(r, o).test(v),
    'test of a SemVer': (semver, { v, r, o }) => new semver.Range(r, o).test(new semver.SemVer(v, o)),
    maxSatisfying: (semver, { list, r, o }) => semver.maxSatisfying(list, r, o),
    minSatisfying: (semver, { list, r, o }) => semver.minSatisfying(list, r, o),
    validRange: (semver, { r, o }) => semver.validRange(r, o),
    Range: (semver, { r, o }) => rangeFields(new semver.Range(r, o)),
    toComparators: (semver, { r, o }) => semver.toComparators(r, o),
    parseRange: (semver, { r, o }) => new semver.Range('1', o).parseRange(r.trim().split(/\s+/).join(' '))
        .map(comparatorFields),
    comparators: (semver, { r, o }) => new semver.Range(r, o).set.map((one) => one.map(comparatorFields)),
    'Comparator.test': (semver, { v, r, o }) => new semver.Range(r, o).set.map((one) =>
        one.map((comparator) => comparator.test(v))),
    'Comparator.intersects': (semver, { r, s, o }) => new semver.Range(r, o).set[0].map((one) =>
        new semver.Range(s, o).set[0].map((other) => one.intersects(other, o))),
    Comparator: (semver, { v, operator, o }) => comparatorFields(new semver.Comparator(operator + v, o)),
    minVersion: (semver, { r, o }) => fields(semver.minVersion(r, o)),
    intersects: (semver, { r, s, o }) => semver.intersects(r, s, o),
    'Range.intersects': (semver, { r, s, o }) => new semver.Range(r, o).intersects(new semver.Range(s, o)),
    subset: (semver, { r, s, o }) => semver.subset(r, s, o ?? {}),
    gtr: (semver, { v, r, o }) => semver.gtr(v, r, o),
    ltr: (semver, { v, r, o }) => semver.ltr(v, r, o),
    outside: (semver, { v, r, operator, o }) => semver.outside(v, r, operator, o),
    simplifyRange: (semver, { list, r, o }) => semver.simplifyRange([...list], r, o),
};

// What each function takes of a pair.
const takes = Object.fromEntries(Object.entries(calls).map(([name, call]) =>
    [name, call.toString().match(/\{ ([\w, ]+) \}/)[1].split(', ')]));

// What a call returns, as JSON, or what it throws. An error of another kind than npm's is a fault.
function result(name, semver, texts) {
    try {
        return JSON.stringify(calls[name](semver, texts)) ?? 'undefined';
    } catch (error) {
        if (error instanceof TypeError || error.message.startsWith('invalid increment argument')) {
            return `${error.constructor.name}: ${error.message}`;
        }
        throw error;
    }
}

module.exports = { OPTIONS, calls, takes, result, npm };
