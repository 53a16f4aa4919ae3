/* 64 bits shifted to the right, for a processor that shifts 32. */
#include <stdint.h>

uint64_t __aeabi_llsr(uint64_t a, int by) {
    const uint32_t low = (uint32_t)a, high = (uint32_t)(a >> 32);
    if (by == 0) return a;
    if (by >= 32) return high >> (by - 32);
    return ((uint64_t)(high >> by) << 32) | ((low >> by) | (high << (32 - by)));
}
