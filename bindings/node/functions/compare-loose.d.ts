// SPDX-License-Identifier: Apache-2.0
import { compareLoose } from '../index.js';

export = compareLoose;
