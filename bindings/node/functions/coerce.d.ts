// SPDX-License-Identifier: Apache-2.0
import { coerce } from '../index.js';

export = coerce;
