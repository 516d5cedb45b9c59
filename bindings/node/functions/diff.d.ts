// SPDX-License-Identifier: Apache-2.0
import { diff } from '../index.js';

export = diff;
