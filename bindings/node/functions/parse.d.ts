// SPDX-License-Identifier: Apache-2.0
import { parse } from '../index.js';

export = parse;
