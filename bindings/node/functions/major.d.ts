// SPDX-License-Identifier: Apache-2.0
import { major } from '../index.js';

export = major;
