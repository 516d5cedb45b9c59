// SPDX-License-Identifier: Apache-2.0
import { lte } from '../index.js';

export = lte;
