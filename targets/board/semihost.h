/* Semihosting: a program without an operating system asks the debugger or the emulator that runs it. */
#ifndef SEMIHOST_H
#define SEMIHOST_H
#include <stdint.h>

#define SEMIHOST_OPEN 0x01
#define SEMIHOST_CLOSE 0x02
#define SEMIHOST_WRITE0 0x04 /* a text that ends with 0 */
#define SEMIHOST_WRITE 0x05
#define SEMIHOST_READ 0x06
#define SEMIHOST_EXIT 0x20

static inline uintptr_t semihost(uintptr_t operation, const void *argument) {
#if defined(__riscv)
    register uintptr_t a0 __asm__("a0") = operation;
    register const void *a1 __asm__("a1") = argument;
    __asm__ volatile(".option push\n.option norvc\n.balign 16\nslli x0, x0, 0x1f\nebreak\nsrai x0, x0, 7\n.option pop"
                     : "+r"(a0)
                     : "r"(a1)
                     : "memory");
    return a0;
#elif defined(__aarch64__)
    register uintptr_t x0 __asm__("x0") = operation;
    register const void *x1 __asm__("x1") = argument;
    __asm__ volatile("hlt #0xf000" : "+r"(x0) : "r"(x1) : "memory");
    return x0;
#else
    register uintptr_t r0 __asm__("r0") = operation;
    register const void *r1 __asm__("r1") = argument;
#if defined(__thumb__)
    __asm__ volatile("bkpt #0xab" : "+r"(r0) : "r"(r1) : "memory");
#else
    __asm__ volatile("svc #0x123456" : "+r"(r0) : "r"(r1) : "memory", "lr");
#endif
    return r0;
#endif
}

/* Ends the program with this status. */
static inline void semihost_exit(uintptr_t status) {
    const uintptr_t words[] = {0x20026 /* the program has ended */, status};
    for (;;) semihost(SEMIHOST_EXIT, words);
}
#endif
