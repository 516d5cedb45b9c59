// SPDX-License-Identifier: Apache-2.0
import { patch } from '../index.js';

export = patch;
