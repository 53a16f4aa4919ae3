/* Division of 64 bits: the quotient. */
#include <stdint.h>

uint64_t wanlopheng_divide(uint64_t numerator, uint64_t divisor, uint64_t *rest);

uint64_t __udivdi3(uint64_t numerator, uint64_t divisor) {
    uint64_t rest;
    const uint64_t quotient = wanlopheng_divide(numerator, divisor, &rest);
    return quotient;
}
