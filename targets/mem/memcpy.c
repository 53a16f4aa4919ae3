/* memcpy for a machine without a C library: words where both sides are aligned, else bytes. */
#include <stddef.h>
#include <stdint.h>

typedef uintptr_t __attribute__((may_alias)) word;

void *memcpy(void *to, const void *from, size_t count) {
    unsigned char *t = to;
    const unsigned char *f = from;
    if ((((uintptr_t)t | (uintptr_t)f) & (sizeof(word) - 1)) == 0) {
        for (; count >= sizeof(word); count -= sizeof(word), t += sizeof(word), f += sizeof(word)) *(word *)t = *(const word *)f;
    }
    for (; count > 0; count--) *t++ = *f++;
    return to;
}
