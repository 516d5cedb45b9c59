// SPDX-License-Identifier: Apache-2.0
import { cmp } from '../index.js';

export = cmp;
