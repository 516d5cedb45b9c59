// SPDX-License-Identifier: Apache-2.0
import { toComparators } from '../index.js';

export = toComparators;
