// SPDX-License-Identifier: Apache-2.0
import { eq } from '../index.js';

export = eq;
