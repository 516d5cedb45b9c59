// SPDX-License-Identifier: Apache-2.0
import { compareBuild } from '../index.js';

export = compareBuild;
