/* What the test programs ask of the machine that they run on. */
#include <stddef.h>
#include <stdint.h>

/* Reads a file into this place; the number of bytes, or 0 where it cannot be read or does not fit. */
size_t port_read(const char *name, void *to, size_t most);

/* Writes a file; 0 where it could not be written. */
int port_write(const char *name, const void *from, size_t count);
