// SPDX-License-Identifier: Apache-2.0
import { intersects } from '../index.js';

export = intersects;
