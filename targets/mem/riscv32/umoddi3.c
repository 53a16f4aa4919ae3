/* Division of 64 bits: the rest. */
#include <stdint.h>

uint64_t wanlopheng_divide(uint64_t numerator, uint64_t divisor, uint64_t *rest);

uint64_t __umoddi3(uint64_t numerator, uint64_t divisor) {
    uint64_t rest;
    const uint64_t quotient = wanlopheng_divide(numerator, divisor, &rest);
    (void)quotient;
    return rest;
}
