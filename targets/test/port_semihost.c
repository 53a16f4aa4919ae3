/* A machine without any: files by semihosting. */
#include "port.h"
#include "semihost.h"

static uintptr_t opened(const char *name, uintptr_t mode) {
    size_t length = 0;
    while (name[length] != 0) length++;
    uintptr_t words[] = {(uintptr_t)name, mode, length};
    return semihost(SEMIHOST_OPEN, words);
}

size_t port_read(const char *name, void *to, size_t most) {
    uintptr_t file = opened(name, 1 /* rb */);
    if (file == (uintptr_t)-1) return 0;
    uintptr_t words[] = {file, (uintptr_t)to, most};
    uintptr_t left = semihost(SEMIHOST_READ, words);
    semihost(SEMIHOST_CLOSE, words);
    return left > 0 && left <= most ? most - left : 0;
}

int port_write(const char *name, const void *from, size_t count) {
    uintptr_t file = opened(name, 5 /* wb */);
    if (file == (uintptr_t)-1) return 0;
    uintptr_t words[] = {file, (uintptr_t)from, count};
    uintptr_t left = semihost(SEMIHOST_WRITE, words);
    semihost(SEMIHOST_CLOSE, words);
    return left == 0;
}
