// SPDX-License-Identifier: Apache-2.0
import { simplifyRange } from '../index.js';

export = simplifyRange;
