// SPDX-License-Identifier: Apache-2.0
import { minSatisfying } from '../index.js';

export = minSatisfying;
