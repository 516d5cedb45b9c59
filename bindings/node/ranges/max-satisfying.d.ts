// SPDX-License-Identifier: Apache-2.0
import { maxSatisfying } from '../index.js';

export = maxSatisfying;
