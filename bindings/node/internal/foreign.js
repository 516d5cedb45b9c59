// SPDX-License-Identifier: Apache-2.0
// Values of npm's own package, and of another load of this one: each has the fields and the methods of a class here, and is of
// another class. Its text counts.
'use strict';

const isOfClass = (value, name) => typeof value === 'object' && value !== null && value.constructor?.name === name;

const isForeignSemVer = (value) => isOfClass(value, 'SemVer') && typeof value.version === 'string'
    && Array.isArray(value.build) && typeof value.comparePre === 'function';

// What is trimmed as a text is, counts as a text.
const isForeignRange = (value) => isOfClass(value, 'Range') && typeof value.raw === 'string'
    && typeof value.parseRange === 'function' && typeof value.trim !== 'function';

const isForeignComparator = (value) => isOfClass(value, 'Comparator') && typeof value.value === 'string'
    && typeof value.operator === 'string' && typeof value.intersects === 'function';

// The text of a version, with its build.
const textWithBuild = ({ version, build }) => (build.length > 0 ? `${version}+${build.join('.')}` : version);

// The options with which a value was made, without what its user passed beside them.
const optionsOfForeign = ({ loose, includePrerelease }) => ({ loose, includePrerelease });

module.exports = { isForeignSemVer, isForeignRange, isForeignComparator, textWithBuild, optionsOfForeign };
