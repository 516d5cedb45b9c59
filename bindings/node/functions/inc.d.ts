// SPDX-License-Identifier: Apache-2.0
import { inc } from '../index.js';

export = inc;
