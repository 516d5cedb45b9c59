// SPDX-License-Identifier: Apache-2.0
import { rsort } from '../index.js';

export = rsort;
