// SPDX-License-Identifier: Apache-2.0
import { gtr } from '../index.js';

export = gtr;
