// SPDX-License-Identifier: Apache-2.0
import { compare } from '../index.js';

export = compare;
