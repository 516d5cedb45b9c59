// SPDX-License-Identifier: Apache-2.0
import { rcompare } from '../index.js';

export = rcompare;
