/* The start of a program on a board of the tests: clears what is to be zero, runs main and ends with its status. Accesses that are not aligned
 * are made to trap where the processor can do so. */
#include <stdint.h>
#include "semihost.h"

extern uint32_t bss_start[], bss_end[], stack_top[];

int main(void);

void board_main(void) {
    for (volatile uint32_t *word = bss_start; word < bss_end; word++) *word = 0;
    semihost_exit((uintptr_t)main());
}

#if defined(__ARM_ARCH_PROFILE) && __ARM_ARCH_PROFILE == 'M'

static void start(void) {
    *(volatile uint32_t *)0xE000ED14 |= 1u << 3; /* CCR.UNALIGN_TRP */
#if defined(__ARM_FP)
    *(volatile uint32_t *)0xE000ED88 |= 0xFu << 20; /* CPACR: the floating-point registers can be used */
    __asm__ volatile("dsb\nisb" ::: "memory");
#endif
    board_main();
}

static void fault(void) { semihost_exit(99); }

__attribute__((section(".vectors"), used)) static void *const vectors[16] = {
    stack_top, (void *)start, (void *)fault, (void *)fault, (void *)fault, (void *)fault, (void *)fault,
};

#elif defined(__arm__)

__asm__(".section .vectors, \"ax\"\n.arm\n.global _start\n_start:\n"
        "ldr sp, =stack_top\n"
        "mrc p15, 0, r0, c1, c0, 0\norr r0, r0, #2\nmcr p15, 0, r0, c1, c0, 0\nisb\n" /* SCTLR.A */
        "ldr r0, =vector_page\nmcr p15, 0, r0, c12, c0, 0\n"
#if defined(__ARM_FP)
        "mrc p15, 0, r0, c1, c0, 2\norr r0, r0, #0xf00000\nmcr p15, 0, r0, c1, c0, 2\nisb\nmov r0, #0x40000000\n.inst 0xeee80a10\n" /* vmsr fpexc, r0 */
#endif
        "b board_main\n.ltorg\n"
        ".balign 32\nvector_page:\nb fault\nb fault\nb fault\nb fault\nb fault\nb fault\nb fault\nb fault\n.text\n");
void fault(void) { semihost_exit(99); }

#elif defined(__aarch64__)

/* The floating-point registers stay off, so that code which touches them traps. */
__asm__(".section .vectors, \"ax\"\n.global _start\n_start:\n"
        "ldr x0, =stack_top\nmov sp, x0\n"
        "ldr x0, =vector_page\nmsr vbar_el1, x0\n"
        "mrs x0, sctlr_el1\norr x0, x0, #2\nmsr sctlr_el1, x0\nisb\n" /* SCTLR.A */
        "b board_main\n.ltorg\n"
        ".balign 2048\nvector_page:\n.rept 16\nb fault\n.balign 128\n.endr\n.text\n");
void fault(void) { semihost_exit(99); }

#elif defined(__riscv)

__asm__(".section .vectors, \"ax\"\n.global _start\n_start:\n"
        ".option push\n.option arch, +zicsr\n.option norelax\nla sp, stack_top\nla t0, trap\ncsrw mtvec, t0\n"
#if defined(__riscv_flen)
        "li t0, 0x2000\ncsrs mstatus, t0\n" /* the floating-point registers can be used */
#endif
        ".option pop\nj board_main\n.balign 4\ntrap: j fault\n.text\n");
void fault(void) { semihost_exit(99); }

#endif
