// SPDX-License-Identifier: Apache-2.0
import { lt } from '../index.js';

export = lt;
