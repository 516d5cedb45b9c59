// SPDX-License-Identifier: Apache-2.0
// The calls of the proved library that the page makes. Versions and ranges live as long as one question: they are freed at its end.
const [OK, NONE, , NOT_UTF8, OUT_OF_MEMORY] = [0, 1, 2, 3, 4];
const KINDS = ['start', 'before', 'after', 'end'];
const MOST_MEMORY = 64 << 20; // A memory never shrinks: above this many bytes the next question has a new one.

// A handle is 8 bytes, a fault 24 and a set 32, as on other machines (see the header for C).
const [HANDLE, FAULT, SET] = [8, 24, 32];

export class Library {
    constructor(module) {
        this.module = module;
        this.encoder = new TextEncoder();
        this.decoder = new TextDecoder();
    }

    // Returns what `ask` returns, and frees all that it made. After a trap, or if memory ran out, the next question has a new instance.
    ask(ask) {
        this.start();
        try {
            const answer = ask(this);
            this.end();
            return answer;
        } catch (error) {
            this.calls = undefined;
            throw error;
        }
    }

    start() {
        if (this.calls === undefined) {
            this.calls = new WebAssembly.Instance(this.module).exports;
            this.roomSize = 256;
            this.room = this.place(this.roomSize);
        }
        this.made = [];
        this.blocks = [];
    }

    end() {
        for (const { isRange, at } of this.made) {
            (isRange ? this.calls.node_semver_range_free : this.calls.node_semver_version_free)(this.view().getUint32(at, true));
        }
        this.blocks.forEach((block) => this.calls.heap_free(block));
        if (this.calls.memory.buffer.byteLength > MOST_MEMORY) {
            this.calls = undefined;
        }
    }

    view() {
        return new DataView(this.calls.memory.buffer);
    }

    bytes(at, length) {
        return new Uint8Array(this.calls.memory.buffer, at, length);
    }

    place(size) {
        const at = this.calls.heap_get(size) >>> 0;
        if (at === 0) {
            throw new RangeError('out of memory');
        }
        return at;
    }

    // A block of zeros that is freed at the end of the question.
    block(size) {
        const at = this.place(Math.max(size, 1));
        this.bytes(at, size).fill(0);
        this.blocks.push(at);
        return at;
    }

    text(text) {
        const bytes = this.encoder.encode(text);
        const at = this.block(bytes.length);
        this.bytes(at, bytes.length).set(bytes);
        return [at, bytes.length];
    }

    handle(isRange) {
        const at = this.block(HANDLE);
        this.made.push({ isRange, at });
        return at;
    }

    // What a call makes, or undefined if it returns that there is none.
    making(isRange, call) {
        const at = this.handle(isRange);
        const status = call(at);
        if (status === OUT_OF_MEMORY) {
            throw new RangeError('out of memory');
        }
        return status === NONE ? undefined : at;
    }

    // What is read of a text: `{ at }`, or `{ kind, offset }` of its fault. The offset counts UTF-16 units, as JavaScript does.
    reading(isRange, text, call) {
        const [from, length] = this.text(text);
        const [at, fault] = [this.handle(isRange), this.block(FAULT)];
        const status = call(from, length, at, fault);
        if (status === OK) {
            return { at };
        }
        if (status === OUT_OF_MEMORY || status === NOT_UTF8) {
            throw new RangeError('out of memory');
        }
        const offset = Number(this.view().getBigUint64(fault + 8, true));
        return { kind: this.view().getUint32(fault, true), offset: this.decoder.decode(this.bytes(from, Math.min(offset, length))).length };
    }

    npmRange(text, { isLoose, isIncluded }) {
        return this.reading(true, text, (from, length, at, fault) =>
            this.calls.node_semver_range_parse_npm(from, length, isLoose ? 1 : 0, isIncluded ? 1 : 0, at, fault));
    }

    crateRange(text) {
        return this.reading(true, text, this.calls.node_semver_range_parse);
    }

    version(text, isLoose) {
        return this.reading(false, text, isLoose ? this.calls.node_semver_version_parse : this.calls.node_semver_version_parse_strict);
    }

    printed(call) {
        for (;;) {
            const length = call(this.room, this.roomSize) >>> 0;
            if (length === 0) {
                throw new RangeError('out of memory');
            }
            if (length <= this.roomSize) {
                return this.decoder.decode(this.bytes(this.room, length));
            }
            this.calls.heap_free(this.room);
            this.room = this.place(length);
            this.roomSize = length;
        }
    }

    versionText(at) {
        return this.printed((room, size) => this.calls.node_semver_version_print(at, room, size));
    }

    rangeText(at) {
        return this.printed((room, size) => this.calls.node_semver_range_print(at, room, size));
    }

    triple(at) {
        return ['major', 'minor', 'patch'].map((name) => BigInt.asUintN(64, this.calls[`node_semver_version_${name}`](at))).join('.');
    }

    isPrerelease(at) {
        return this.calls.node_semver_version_is_prerelease(at) !== 0;
    }

    compare(one, other) {
        return this.calls.node_semver_version_compare(one, other);
    }

    isInside(range, version) {
        return this.calls.node_semver_range_contains(range, version) !== 0;
    }

    isAdmitted(range, version, isIncluded) {
        return isIncluded ? this.isInside(range, version) : this.calls.node_semver_satisfies(range, version) !== 0;
    }

    least(range, isIncluded) {
        const call = isIncluded ? this.calls.node_semver_min_version_with_prereleases : this.calls.node_semver_min_version;
        return this.making(false, (at) => call(range, at));
    }

    intersection(one, other) {
        return this.making(true, (at) => this.calls.node_semver_range_intersect(one, other, at));
    }

    difference(one, other) {
        return this.making(true, (at) => this.calls.node_semver_range_difference(one, other, at));
    }

    areEqual(one, other) {
        return this.calls.node_semver_range_equals(one, other) !== 0;
    }

    countOfSets(range) {
        return this.calls.node_semver_range_set_count(range) >>> 0;
    }

    // The sets of a range, at most so many: each is `{ lower, upper }`, and an end `{ kind, at, text }`.
    sets(range, most) {
        return Array.from({ length: Math.min(most, this.countOfSets(range)) }, (_, place) => {
            const set = this.block(SET);
            if (this.calls.node_semver_range_set(range, place, set) !== OK) {
                throw new RangeError('out of memory');
            }
            return { lower: this.cut(set), upper: this.cut(set + 16) };
        });
    }

    cut(from) {
        const kind = KINDS[this.view().getUint32(from, true)];
        if (kind === 'start' || kind === 'end') {
            return { kind };
        }
        const at = from + 8;
        this.made.push({ isRange: false, at });
        return { kind, at, text: this.versionText(at) };
    }
}
