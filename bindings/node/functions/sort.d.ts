// SPDX-License-Identifier: Apache-2.0
import { sort } from '../index.js';

export = sort;
