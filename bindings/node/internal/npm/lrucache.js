// SPDX-License-Identifier: Apache-2.0
// npm's cache: the 1,000 values that were last used. This package does not use it.
'use strict';

class LRUCache {
    constructor() {
        this.max = 1000;
        this.map = new Map();
    }

    get(key) {
        const value = this.map.get(key);
        if (value !== undefined) {
            this.map.delete(key);
            this.map.set(key, value);
        }
        return value;
    }

    delete(key) {
        return this.map.delete(key);
    }

    // As with npm, a key that is there already is taken out and not set.
    set(key, value) {
        if (!this.delete(key) && value !== undefined) {
            if (this.map.size >= this.max) {
                this.delete(this.map.keys().next().value);
            }
            this.map.set(key, value);
        }
        return this;
    }
}

module.exports = LRUCache;
