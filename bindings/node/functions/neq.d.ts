// SPDX-License-Identifier: Apache-2.0
import { neq } from '../index.js';

export = neq;
