/* Division of 64 bits, bit by bit where 32 do not suffice; both results. A divisor of 0 cannot arise in proved code. The name is our own, since the
 * compiler's library gives the name __udivmoddi4 to a routine that also takes no place for the rest. */
#include <stdint.h>

uint64_t wanlopheng_divide(uint64_t numerator, uint64_t divisor, uint64_t *rest) {
    if (((numerator | divisor) >> 32) == 0) {
        *rest = (uint32_t)numerator % (uint32_t)divisor;
        return (uint32_t)numerator / (uint32_t)divisor;
    }
    uint64_t quotient = 0, left = 0;
    for (int bit = 0; bit < 64; bit++) {
        const uint64_t carried = left >> 63;
        left = (left << 1) | (numerator >> 63);
        numerator <<= 1;
        quotient <<= 1;
        if (carried != 0 || left >= divisor) {
            left -= divisor;
            quotient |= 1;
        }
    }
    *rest = left;
    return quotient;
}
