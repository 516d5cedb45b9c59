// SPDX-License-Identifier: Apache-2.0
import { SemVer } from '../index.js';

export = SemVer;
