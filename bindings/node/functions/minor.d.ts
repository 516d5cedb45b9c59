// SPDX-License-Identifier: Apache-2.0
import { minor } from '../index.js';

export = minor;
