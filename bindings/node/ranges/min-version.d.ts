// SPDX-License-Identifier: Apache-2.0
import { minVersion } from '../index.js';

export = minVersion;
