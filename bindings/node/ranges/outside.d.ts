// SPDX-License-Identifier: Apache-2.0
import { outside } from '../index.js';

export = outside;
