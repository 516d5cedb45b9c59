// SPDX-License-Identifier: Apache-2.0
// For hosts that compile a module before they run it.
import module from '../../../wasm/npm_calls.wasm';

export { module };
