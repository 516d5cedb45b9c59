/* SPDX-License-Identifier: Apache-2.0 */
/* The functions that LLVM's backend for WebAssembly calls by their own names. heap.c has them, once. */
#ifndef COMPILER_H
#define COMPILER_H

typedef __int128 wide;

/* The halves of a number of 128 bits, and the number of two halves. */
static inline uint64_t low_of(wide value) {
    return (uint64_t)value;
}

static inline uint64_t high_of(wide value) {
    return (uint64_t)((unsigned __int128)value >> 64);
}

static inline wide of_halves(uint64_t high, uint64_t low) {
    return (wide)((unsigned __int128)high << 64 | low);
}

/* The product of two numbers of 64 bits, as the two halves of 128. */
static inline void multiplied(uint64_t one, uint64_t other, uint64_t *low, uint64_t *high) {
    uint64_t half = 0xffffffffu, a = one & half, b = one >> 32, c = other & half, d = other >> 32;
    uint64_t low_low = a * c, high_low = b * c, low_high = a * d;
    uint64_t middle = (low_low >> 32) + (high_low & half) + (low_high & half);
    *low = (low_low & half) | (middle << 32);
    *high = b * d + (high_low >> 32) + (low_high >> 32) + (middle >> 32);
}

/* The product of two numbers of 128 bits, without what is above 128 bits. */
wide __multi3(wide one, wide other) {
    uint64_t low, high;
    multiplied(low_of(one), low_of(other), &low, &high);
    return of_halves(high + low_of(one) * high_of(other) + high_of(one) * low_of(other), low);
}

/* Shifts by 0 to 127 bits. */
wide __ashlti3(wide value, int bits) {
    uint64_t low = low_of(value), high = high_of(value);
    if (bits >= 64) {
        return of_halves(low << (bits - 64), 0);
    }
    return bits == 0 ? value : of_halves(high << bits | low >> (64 - bits), low << bits);
}

wide __lshrti3(wide value, int bits) {
    uint64_t low = low_of(value), high = high_of(value);
    if (bits >= 64) {
        return of_halves(0, high >> (bits - 64));
    }
    return bits == 0 ? value : of_halves(high >> bits, low >> bits | high << (64 - bits));
}

#endif
