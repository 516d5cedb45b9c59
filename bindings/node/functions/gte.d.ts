// SPDX-License-Identifier: Apache-2.0
import { gte } from '../index.js';

export = gte;
