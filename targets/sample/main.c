/* A program for a Cortex-M4 without an operating system: it holds names.tab in its read-only memory, checks it once, normalises the two sample lines
 * of 01 and writes what the line program writes, by semihosting. `tools/targets --sample` builds it with the toolchain alone and runs it on
 * mps2-an386 under qemu-system-arm. */
#include "semihost.h"
#include "wanlopheng.h"

extern const uint8_t table_file[], table_end[];
__asm__(".section .rodata.table, \"a\"\n.global table_file, table_end\ntable_file: .incbin \"" TABLE "\"\ntable_end:\n.text\n");

static uint32_t words[8192], answer[WANLOPHENG_ANSWER_WORDS], work[WANLOPHENG_WORK_WORDS];

/* A number in base 10 or 16, after a blank. */
static void put(uint32_t number, uint32_t base) {
    char text[12], *at = text + sizeof text;
    *--at = 0;
    do *--at = "0123456789ABCDEF"[number % base]; while ((number /= base) != 0);
    *--at = ' ';
    semihost(SEMIHOST_WRITE0, at);
}

static void serve(const uint32_t *name, size_t length, size_t count) {
    struct wanlopheng_name r = wanlopheng_name(name, length, words, count, 0, answer, WANLOPHENG_ANSWER_WORDS, work, WANLOPHENG_WORK_WORDS);
    semihost(SEMIHOST_WRITE0, r.number == WANLOPHENG_ACCEPTED ? "ok" : "no");
    for (size_t i = 0; i < r.length; i++) put(answer[i], 16);
    if (r.number != WANLOPHENG_ACCEPTED) put(r.number, 10), put((uint32_t)r.place, 10);
    semihost(SEMIHOST_WRITE0, "\n");
}

int main(void) {
    static const uint32_t first[] = {0x5F, 0x24, 0x41}, second[] = {0x61, 0x2E, 0x2E, 0x62};
    struct wanlopheng_unpack table = wanlopheng_unpack(table_file, (size_t)(table_end - table_file), words, 8192);
    if (table.number != WANLOPHENG_ACCEPTED) return 1;
    if (wanlopheng_soundness(words, table.count).sound != 1) return 2;
    serve(first, 3, table.count);
    serve(second, 4, table.count);
    semihost(SEMIHOST_WRITE0, "end 2\n");
    return 0;
}
