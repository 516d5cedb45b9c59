// SPDX-License-Identifier: Apache-2.0
export { SemVer, Range, Comparator } from '../index.js';
