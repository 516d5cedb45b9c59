// SPDX-License-Identifier: Apache-2.0
import { validRange } from '../index.js';

export = validRange;
