/* The quotient alone. */
#include <stdint.h>

uint64_t __aeabi_uidivmod(uint32_t numerator, uint32_t divisor);

uint32_t __aeabi_uidiv(uint32_t numerator, uint32_t divisor) { return (uint32_t)__aeabi_uidivmod(numerator, divisor); }
