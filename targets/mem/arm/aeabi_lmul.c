/* The product of 64 bits, for a processor that multiplies 32 by 32 to 32. */
#include <stdint.h>

uint64_t __aeabi_lmul(uint64_t a, uint64_t b) {
    const uint32_t a_low = (uint32_t)a, b_low = (uint32_t)b;
    const uint32_t a0 = a_low & 0xFFFF, a1 = a_low >> 16, b0 = b_low & 0xFFFF, b1 = b_low >> 16;
    const uint32_t middle = a1 * b0 + ((a0 * b0) >> 16), other = a0 * b1 + (middle & 0xFFFF);
    const uint32_t low = (other << 16) | ((a0 * b0) & 0xFFFF);
    const uint32_t high = a1 * b1 + (middle >> 16) + (other >> 16) + (uint32_t)(a >> 32) * b_low + a_low * (uint32_t)(b >> 32);
    return ((uint64_t)high << 32) | low;
}
