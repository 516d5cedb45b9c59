// SPDX-License-Identifier: Apache-2.0
import { gt } from '../index.js';

export = gt;
