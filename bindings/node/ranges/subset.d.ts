// SPDX-License-Identifier: Apache-2.0
import { subset } from '../index.js';

export = subset;
