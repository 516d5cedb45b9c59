/* SPDX-License-Identifier: Apache-2.0 */
/* Compares the look-up of bytes that retarget.py writes with the instruction of x86 that it stands for. */
#include <stdint.h>
#include <stdio.h>
#include <string.h>
#include <tmmintrin.h>

__m128i lookup_bytes(__m128i bytes, __m128i places);

int main(void) {
    uint64_t seed = 1;
    unsigned char given[2][16], found[16], wanted[16];
    for (int turn = 0; turn < 100000; turn++) {
        for (int at = 0; at < 32; at++) {
            seed = seed * 6364136223846793005u + 1442695040888963407u;
            given[at / 16][at % 16] = (unsigned char)(seed >> 56);
        }
        __m128i bytes, places;
        memcpy(&bytes, given[0], 16);
        memcpy(&places, given[1], 16);
        __m128i one = lookup_bytes(bytes, places), other = _mm_shuffle_epi8(bytes, places);
        memcpy(found, &one, 16);
        memcpy(wanted, &other, 16);
        if (memcmp(found, wanted, 16) != 0) {
            printf("turn %d differs\n", turn);
            return 1;
        }
    }
    return 0;
}
