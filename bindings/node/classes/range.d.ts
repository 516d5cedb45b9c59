// SPDX-License-Identifier: Apache-2.0
import { Range } from '../index.js';

export = Range;
