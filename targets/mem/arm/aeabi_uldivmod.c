/* Division of 64 bits as the run-time ABI of ARM has it: the quotient in r0 and r1, the rest in r2 and r3. */
__attribute__((naked)) void __aeabi_uldivmod(void) {
    __asm__("push {r6, lr}\n"
            "sub sp, #16\n"
            "add r6, sp, #8\n"
            "str r6, [sp]\n"
            "bl wanlopheng_divide\n"
            "ldr r2, [sp, #8]\n"
            "ldr r3, [sp, #12]\n"
            "add sp, #16\n"
            "pop {r6, pc}");
}
