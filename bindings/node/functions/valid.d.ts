// SPDX-License-Identifier: Apache-2.0
import { valid } from '../index.js';

export = valid;
