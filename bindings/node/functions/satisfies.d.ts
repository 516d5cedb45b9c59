// SPDX-License-Identifier: Apache-2.0
import { satisfies } from '../index.js';

export = satisfies;
