// SPDX-License-Identifier: Apache-2.0
import { prerelease } from '../index.js';

export = prerelease;
