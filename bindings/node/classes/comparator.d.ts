// SPDX-License-Identifier: Apache-2.0
import { Comparator } from '../index.js';

export = Comparator;
