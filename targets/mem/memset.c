/* memset for a machine without a C library: words where the place is aligned, else bytes. */
#include <stddef.h>
#include <stdint.h>

typedef uintptr_t __attribute__((may_alias)) word;

void *memset(void *to, int byte, size_t count) {
    unsigned char *t = to;
    if (((uintptr_t)t & (sizeof(word) - 1)) == 0) {
        const word filled = (word)-1 / 255 * (unsigned char)byte;
        for (; count >= sizeof(word); count -= sizeof(word), t += sizeof(word)) *(word *)t = filled;
    }
    for (; count > 0; count--) *t++ = (unsigned char)byte;
    return to;
}
