// SPDX-License-Identifier: Apache-2.0
import { clean } from '../index.js';

export = clean;
