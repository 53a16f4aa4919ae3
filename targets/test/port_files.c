/* A machine with a C library. */
#include <stdio.h>
#include "port.h"

size_t port_read(const char *name, void *to, size_t most) {
    FILE *f = fopen(name, "rb");
    if (f == NULL) return 0;
    size_t count = fread(to, 1, most, f);
    fclose(f);
    return count < most ? count : 0;
}

int port_write(const char *name, const void *from, size_t count) {
    FILE *f = fopen(name, "wb");
    if (f == NULL) return 0;
    size_t written = fwrite(from, 1, count, f);
    return fclose(f) == 0 && written == count;
}
