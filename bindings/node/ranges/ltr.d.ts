// SPDX-License-Identifier: Apache-2.0
import { ltr } from '../index.js';

export = ltr;
