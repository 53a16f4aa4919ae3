/* A unit's whole loop. It loads a table of up to the largest size and checks it once; then it takes names from standard input,
 * one a line as hexadecimal codepoints, and shows for each its normal form and the kinds of its labels, or why it is refused.
 * These buffers are all that it has: no heap, and nothing of a name is left in them once it is shown.
 *
 *     ./install
 *     gcc examples/unit.c $(pkg-config --cflags --libs wanlopheng) -o unit && echo "4E 69 63 6B" | ./unit data/full.tab
 */
#include <stdio.h>
#include <stdlib.h>
#include <string.h>

#include "wanlopheng.h"
#include "wanlopheng_text.h"

/* 0: labels of restricted groups pass; any other number refuses them, as 17. */
enum { SETTING = 0 };

/* One byte and one codepoint more than the most, so that what is longer is seen to be. */
static uint8_t file[WANLOPHENG_FILE_BYTES + 1];
static uint32_t table[WANLOPHENG_TABLE_WORDS];
static uint32_t name[WANLOPHENG_INPUT_MOST + 1];
static uint32_t answer[WANLOPHENG_ANSWER_WORDS], part[WANLOPHENG_ANSWER_WORDS], work[WANLOPHENG_WORK_WORDS];

/* The words of the table in this file; 0 where there is none. */
static size_t load(const char *path) {
    FILE *in = fopen(path, "rb");
    if (in == NULL) {
        perror(path);
        return 0;
    }
    size_t bytes = fread(file, 1, sizeof file, in);
    fclose(in);
    struct wanlopheng_unpack r = wanlopheng_unpack(file, bytes, table, WANLOPHENG_TABLE_WORDS);
    if (r.number != WANLOPHENG_ACCEPTED) fprintf(stderr, "%s: %s\n", path, wanlopheng_text(r.number));
    return r.count;
}

/* Reads the codepoints of a line: how many, or -1 at the end of input, or -2 where it is too long or a word is no number. */
static long read_name(FILE *in) {
    static char line[16 * (WANLOPHENG_INPUT_MOST + 1)];
    if (fgets(line, sizeof line, in) == NULL) return -1;
    if (strchr(line, '\n') == NULL && !feof(in)) {
        for (int c = getc(in); c != '\n' && c != EOF; c = getc(in)) {}
        return -2;
    }
    long length = 0;
    char *at = line, *end;
    for (;;) {
        while (*at == ' ') at++;
        if (*at == '\n' || *at == '\0') return length;
        unsigned long c = strtoul(at, &end, 16);
        if (end == at) return -2;
        if (length <= WANLOPHENG_INPUT_MOST) name[length++] = c > UINT32_MAX ? UINT32_MAX : (uint32_t)c;
        at = end;
    }
}

static void show_kind(const uint32_t *label, size_t length, size_t words) {
    struct wanlopheng_label r = wanlopheng_label(label, length, table, words, SETTING, part, WANLOPHENG_ANSWER_WORDS, work,
                                                 WANLOPHENG_WORK_WORDS);
    switch (r.kind) {
    case WANLOPHENG_EMOJI: printf(" emoji"); break;
    case WANLOPHENG_ASCII: printf(" ASCII"); break;
    case WANLOPHENG_GROUP: printf(" group %zu%s", r.group, r.restricted ? " (restricted)" : ""); break;
    }
}

static void show(size_t length, size_t words) {
    struct wanlopheng_name r = wanlopheng_name(name, length, table, words, SETTING, answer, WANLOPHENG_ANSWER_WORDS, work, WANLOPHENG_WORK_WORDS);
    if (r.number != WANLOPHENG_ACCEPTED) {
        printf("refused %u at %zu: %s\n", (unsigned)r.number, r.place, wanlopheng_text(r.number));
        return;
    }
    printf("accepted");
    for (size_t i = 0; i < r.length; i++) printf(" %X", (unsigned)answer[i]);
    if (r.labels > 0) printf(";");
    for (size_t start = 0, i = 0; r.labels > 0 && i <= r.length; i++) {
        if (i < r.length && answer[i] != 0x2E) continue;
        show_kind(answer + start, i - start, words);
        start = i + 1;
    }
    printf("\n");
}

/* Zeros that the compiler cannot leave out. */
static void wipe(volatile uint32_t *words, size_t length) {
    for (size_t i = 0; i < length; i++) words[i] = 0;
}

int main(int count, char **words_of) {
    if (count != 2) {
        fprintf(stderr, "usage: %s TABLE\n", words_of[0]);
        return 2;
    }
    size_t words = load(words_of[1]);
    if (words == 0) return 3;
    struct wanlopheng_soundness checked = wanlopheng_soundness(table, words);
    if (checked.sound == 0) {
        fprintf(stderr, "%s: not sound, rule %u\n", words_of[1], (unsigned)checked.rule);
        return 3;
    }
    for (;;) {
        long length = read_name(stdin);
        if (length == -1) return 0;
        if (length == -2) printf("unreadable\n");
        else show((size_t)length, words);
        /* The work area is zeros after every call. */
        wipe(name, WANLOPHENG_INPUT_MOST + 1);
        wipe(answer, WANLOPHENG_ANSWER_WORDS);
        wipe(part, WANLOPHENG_ANSWER_WORDS);
    }
}
