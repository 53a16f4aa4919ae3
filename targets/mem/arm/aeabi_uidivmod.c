/* Division of 32 bits for a processor that has none, bit by bit: the quotient in r0, the rest in r1. */
#include <stdint.h>

uint64_t __aeabi_uidivmod(uint32_t numerator, uint32_t divisor) {
    uint32_t quotient = 0, left = 0;
    for (int bit = 0; bit < 32; bit++) {
        const uint32_t carried = left >> 31;
        left = (left << 1) | (numerator >> 31);
        numerator <<= 1;
        quotient <<= 1;
        if (carried != 0 || left >= divisor) {
            left -= divisor;
            quotient |= 1;
        }
    }
    return ((uint64_t)left << 32) | quotient;
}
