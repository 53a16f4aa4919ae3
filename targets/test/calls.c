/* Runs the calls of the library on the questions of a file, by the header, and writes what they answer. On every machine the answers have to be
 * those of x86-64, byte for byte. The file `questions` (rust/standin/src/bin/questions.rs) has words of 32 bits:
 *
 *     mode, times, number of tables, each as its count and words, number of questions,
 *     each as table, setting, words of the answer, words of the work area, count and codepoints
 *
 * Mode 0: `answers` has for each call number, place, and a sum over every field and every word of every buffer, which were full of marks.
 * Mode 1: `answers` has for each kind of call the most bytes of stack, of words that are codepoints of the name and of codepoints in order that
 * were left there, as docs/STACK.md says. Mode 2: the name call on each question, this many times; `answers` has the sum of the numbers.
 * Status: 0, or the place that failed; a buffer's surroundings that changed are 7, a part of a name that was left and not found is 10. */
#include "port.h"
#include "wanlopheng.h"

#define FILE_WORDS (1u << 21)
#define MARK 0xA5C3u
#define GUARD 16u
#define ROOM 10240u

static uint32_t questions[FILE_WORDS], answers[FILE_WORDS / 2];
static size_t filled;
static uint32_t answer_area[GUARD + ROOM + GUARD], work_area[GUARD + ROOM + GUARD], book[WANLOPHENG_BOOK_WORDS], packed[GUARD + WANLOPHENG_TABLE_WORDS + 2];
static uint32_t *const answer = answer_area + GUARD, *const work = work_area + GUARD;
static uint32_t sum;

struct question {
    const uint32_t *table, *name;
    size_t words, length, room, work;
    uint32_t setting;
};

static void fold(uint32_t word) { sum = (((sum << 5) | (sum >> 27)) ^ word) * 0x9E3779B1u; }

static void fold_size(size_t size) {
    fold((uint32_t)size);
    fold((uint32_t)((uint64_t)size >> 32));
}

static void write_words(uint32_t a, uint32_t b, uint32_t c) {
    if (filled + 3 > FILE_WORDS / 2) return;
    answers[filled++] = a;
    answers[filled++] = b;
    answers[filled++] = c;
}

/* Marks in both buffers and around them. */
static void mark(const struct question *q) {
    for (uint32_t i = 0; i < GUARD + q->room + GUARD; i++) answer_area[i] = (i << 16) | MARK;
    for (uint32_t i = 0; i < GUARD + q->work + GUARD; i++) work_area[i] = (i << 16) | MARK;
    sum = 1;
}

static int around(const uint32_t *area, size_t room) {
    for (uint32_t i = 0; i < GUARD; i++) {
        uint32_t above = (uint32_t)(GUARD + room) + i;
        if (area[i] != ((i << 16) | MARK) || area[above] != ((above << 16) | MARK)) return 1;
    }
    return 0;
}

/* Folds the words that are not zero, with their places. */
static void fold_words(const uint32_t *words, size_t count) {
    for (size_t i = 0; i < count; i++) {
        if (words[i] != 0) {
            fold((uint32_t)i);
            fold(words[i]);
        }
    }
}

/* Ends a call: its number and place, and the sum over all else. */
static int ended(const struct question *q, uint32_t number, size_t place) {
    fold_size(place);
    fold_words(answer, q->room);
    fold_words(work, q->work);
    write_words(number, (uint32_t)place, sum);
    return around(answer_area, q->room) || around(work_area, q->work);
}

static void fold_digest(struct wanlopheng_digest d) {
    for (size_t i = 0; i < 32; i++) fold(d.bytes[i]);
}

/* A long name on one of the two tables of data/: it is asked of the name call alone, since an emulator is slow. */
static int is_slow(const struct question *q) { return q->length > 1000 && q->words > 5000; }

static int names(const struct question *q) {
    mark(q);
    struct wanlopheng_name n = wanlopheng_name(q->name, q->length, q->table, q->words, q->setting, answer, q->room, work, q->work);
    fold_size(n.length);
    fold_size(n.labels);
    if (ended(q, n.number, n.place)) return 1;
    if (is_slow(q)) return 0;
    mark(q);
    struct wanlopheng_label l = wanlopheng_label(q->name, q->length, q->table, q->words, q->setting, answer, q->room, work, q->work);
    fold_size(l.length);
    fold(l.kind);
    fold_size(l.group);
    fold(l.restricted);
    if (ended(q, l.number, l.place)) return 1;
    mark(q);
    struct wanlopheng_namehash h = wanlopheng_namehash(q->name, q->length, q->table, q->words, q->setting, answer, q->room, work, q->work);
    fold_size(h.name.length);
    fold_size(h.name.labels);
    fold_digest(h.node);
    if (ended(q, h.name.number, h.name.place)) return 1;
    /* The Greek group is one of the first, or none. */
    const uint32_t greek = q->length % 4 == 3 ? 0xFFFFFFFFu : (uint32_t)(q->length % 4);
    mark(q);
    n = wanlopheng_screen(q->name, q->length, q->table, q->words, greek, q->setting, answer, q->room, work, q->work);
    fold_size(n.length);
    fold_size(n.labels);
    return ended(q, n.number, n.place);
}

static int lookups(const struct question *q) {
    mark(q);
    struct wanlopheng_group g = wanlopheng_group(q->name, q->length, q->table, q->words);
    fold(g.found);
    fold_size(g.group);
    fold(g.restricted);
    fold(g.whitelisted);
    fold_size(g.asked);
    if (ended(q, g.number, g.place)) return 1;
    mark(q);
    struct wanlopheng_emoji e = wanlopheng_emoji(q->name, q->length, q->table, q->words);
    fold(e.found);
    fold_size(e.taken);
    fold_size(e.index);
    fold_size(e.selectors);
    if (ended(q, e.number, 0)) return 1;
    mark(q);
    struct wanlopheng_part p = wanlopheng_trim(q->name, q->length);
    fold_size(p.length);
    return ended(q, 0, p.start);
}

static int forms(const struct question *q) {
    mark(q);
    struct wanlopheng_form f = wanlopheng_nfd(q->name, q->length, q->table, q->words, answer, q->room, work, q->work);
    fold_size(f.length);
    if (ended(q, f.number, 0)) return 1;
    mark(q);
    f = wanlopheng_nfc(q->name, q->length, q->table, q->words, answer, q->room, work, q->work);
    fold_size(f.length);
    return ended(q, f.number, 0);
}

/* The report, its bytes in the answer buffer, and the groups behind a 14. */
static int shown(const struct question *q) {
    mark(q);
    struct wanlopheng_report r = wanlopheng_report(q->name, q->length, q->table, q->words, q->setting, (uint8_t *)answer, 4 * q->room, work, q->work);
    fold_size(r.length);
    if (ended(q, r.number, r.place)) return 1;
    mark(q);
    struct wanlopheng_list l = wanlopheng_respelled(q->name, q->length, q->table, q->words, answer, q->room, work, q->work);
    fold_size(l.entries);
    return ended(q, l.number, l.place);
}

/* The name as bytes, and as bytes that are cut short or are no UTF-8; and what Keccak-256 makes of them, whole and in two pieces. */
static int bytes(const struct question *q) {
    static uint8_t text[4 * ROOM];
    mark(q);
    size_t scalar = q->length;
    struct wanlopheng_utf8 u = wanlopheng_utf8_write(q->name, q->length, (uint8_t *)answer, 4 * q->room);
    fold_size(u.length);
    if (ended(q, u.number, u.place)) return 1;
    if (u.number == WANLOPHENG_NO_SCALAR) scalar = u.place;
    u = wanlopheng_utf8_write(q->name, scalar, text, sizeof text);
    const size_t lengths[] = {u.length, u.length > 0 ? u.length - 1 : 0, 4 * q->length};
    for (size_t i = 0; i < 3; i++) {
        const uint8_t *from = i == 2 ? (const uint8_t *)q->name : text;
        mark(q);
        u = wanlopheng_utf8_read(from, lengths[i], answer, q->room);
        fold_size(u.length);
        if (ended(q, u.number, u.place)) return 1;
        mark(q);
        struct wanlopheng_name n = wanlopheng_name_bytes(from, lengths[i], q->table, q->words, q->setting, answer, q->room, work, q->work);
        fold_size(n.length);
        fold_size(n.labels);
        if (ended(q, n.number, n.place)) return 1;
    }
    mark(q);
    fold_digest(wanlopheng_keccak256(text, lengths[0]));
    struct wanlopheng_sponge s = wanlopheng_sponge_absorb(wanlopheng_sponge_new(), text, lengths[0] / 3);
    fold_size(s.fill);
    s = wanlopheng_sponge_absorb(s, text + lengths[0] / 3, lengths[0] - lengths[0] / 3);
    for (size_t i = 0; i < 25; i++) fold((uint32_t)s.lanes[i]), fold((uint32_t)(s.lanes[i] >> 32));
    fold_size(s.fill);
    fold_digest(wanlopheng_sponge_digest(s));
    return ended(q, 0, 0);
}

static void fold_book(void) { fold_words(book, WANLOPHENG_BOOK_WORDS); }

/* One book goes through all questions; now and then it is damaged, of another size, and reset. */
static int payees(const struct question *q, uint32_t number) {
    struct wanlopheng_account account;
    for (uint32_t i = 0; i < 8; i++) account.words[i] = number * 0x01000193u + i;
    const size_t size = number % 61 == 60 ? WANLOPHENG_BOOK_WORDS - 1 : WANLOPHENG_BOOK_WORDS;
    if (number % 400 == 380) book[16 + 255] ^= 1;
    struct wanlopheng_book b;
    for (int i = 0; i < 2; i++) {
        mark(q);
        struct wanlopheng_found f = wanlopheng_find(q->name, q->length, q->table, q->words, q->setting, book, size, answer, q->room, work, q->work);
        for (size_t j = 0; j < 8; j++) fold(f.account.words[j]);
        if (ended(q, f.number, f.place)) return 1;
        if (i == 1) break;
        mark(q);
        b = wanlopheng_save(q->name, q->length, q->table, q->words, q->setting, account, book, size, answer, q->room, work, q->work);
        if (number % 16 == 0) fold_book();
        if (ended(q, b.number, b.place)) return 1;
    }
    if (number % 5 == 0) {
        mark(q);
        b = wanlopheng_forget(q->name, q->length, q->table, q->words, q->setting, book, size, answer, q->room, work, q->work);
        if (ended(q, b.number, b.place)) return 1;
    }
    if (number % 7 == 0) {
        mark(q);
        struct wanlopheng_list l = wanlopheng_moved(book, size, q->table, q->words, answer, q->room, work, q->work);
        fold_size(l.entries);
        if (ended(q, l.number, l.place)) return 1;
    }
    if (number % 400 == 399) {
        mark(q);
        b = wanlopheng_reset(book, size, answer, q->room, work, q->work);
        fold_book();
        if (ended(q, b.number, b.place)) return 1;
    }
    return 0;
}

/* The file of a table, as unpacking wants it: a byte 3, then the count and the words, their highest byte first. */
static size_t pack(const uint32_t *table, size_t words, uint8_t *file) {
    size_t at = 0;
    file[at++] = 3;
    for (size_t i = 0; i <= words; i++) {
        uint32_t word = i == 0 ? (uint32_t)words : table[i - 1];
        for (int shift = 24; shift >= 0; shift -= 8) file[at++] = (uint8_t)(word >> shift);
    }
    return at;
}

/* A table by itself: its layout, its soundness, and unpacking its file, whole and damaged. */
static int tables(const uint32_t *table, size_t words) {
    struct question q = {table, table, words, 0, ROOM, 0, 0};
    uint8_t *file = (uint8_t *)packed;
    mark(&q);
    struct wanlopheng_soundness s = wanlopheng_soundness(table, words);
    fold(s.rule);
    fold(wanlopheng_layout_fault(table, words));
    if (ended(&q, s.sound, 0)) return 1;
    size_t length = pack(table, words, file);
    for (uint32_t i = 0; i < 4; i++) {
        if (i == 3) file[0] = 9;
        q.room = i == 1 ? (words < ROOM && words > 0 ? words - 1 : 0) : ROOM;
        mark(&q);
        struct wanlopheng_unpack u = wanlopheng_unpack(file, i == 2 ? length - 1 : length, answer, q.room);
        fold_size(u.count);
        if (ended(&q, u.number, 0)) return 1;
    }
    return 0;
}

static int answered(const struct question *q, uint32_t number) {
    if (q->room > ROOM || q->work > ROOM || q->length > 4 * ROOM) return 5;
    if (is_slow(q)) return names(q) ? 7 : 0;
    return names(q) || lookups(q) || forms(q) || shown(q) || bytes(q) || payees(q, number) ? 7 : 0;
}

#ifdef __wasm__ /* targets/test/stack.mjs does it from without */
static int stack_of(const struct question *q) { return q == NULL; }
static int stack_of_table(const uint32_t *table, size_t words) { return table == NULL || words == 0; }
enum { KINDS = 0 };
static struct { uint32_t used, words, in_order; } most[1];
#else

/* The stack: painted from a place well below the callers down, then a call, which starts below that place, then looked through. */
#define PAINT 0x5041494Eu
#define PAINTED (192u * 1024 / 4)
#define GAP 2048
#define NINE 9u /* bytes in order that are a part of a name */

static volatile uint32_t *lowest;
static const struct question *asked;
static uintptr_t called_at;

static __attribute__((noinline)) void paint(void) {
    lowest = (volatile uint32_t *)(((uintptr_t)__builtin_frame_address(0) - 1024) & ~(uintptr_t)15) - PAINTED;
    for (size_t i = 0; i < PAINTED; i++) lowest[i] = PAINT;
}

#define CALL(name, call)                                       \
    static void call_##name(void) {                            \
        const struct question *q = asked;                      \
        (void)q;                                               \
        called_at = (uintptr_t)__builtin_frame_address(0);     \
        sum += call;                                           \
    }
#define LENT q->name, q->length, q->table, q->words
#define BUFFERS answer, q->room, work, q->work
#define BOOK book, WANLOPHENG_BOOK_WORDS
#define BYTES (const uint8_t *)packed, filled
static struct wanlopheng_account account;
static struct wanlopheng_sponge sponge;
CALL(name, wanlopheng_name(LENT, q->setting, BUFFERS).number)
CALL(label, wanlopheng_label(LENT, q->setting, BUFFERS).number)
CALL(namehash, wanlopheng_namehash(LENT, q->setting, BUFFERS).name.number)
CALL(screen, wanlopheng_screen(LENT, 1, q->setting, BUFFERS).number)
CALL(nfd, wanlopheng_nfd(LENT, BUFFERS).number)
CALL(nfc, wanlopheng_nfc(LENT, BUFFERS).number)
CALL(group, wanlopheng_group(LENT).number)
CALL(emoji, wanlopheng_emoji(LENT).number)
CALL(trim, (uint32_t)wanlopheng_trim(q->name, q->length).length)
CALL(utf8_write, wanlopheng_utf8_write(q->name, q->length, (uint8_t *)answer, 4 * q->room).number)
CALL(utf8_read, wanlopheng_utf8_read(BYTES, answer, q->room).number)
CALL(name_bytes, wanlopheng_name_bytes(BYTES, q->table, q->words, q->setting, BUFFERS).number)
CALL(save, wanlopheng_save(LENT, q->setting, account, BOOK, BUFFERS).number)
CALL(find, wanlopheng_find(LENT, q->setting, BOOK, BUFFERS).number)
CALL(moved, wanlopheng_moved(BOOK, q->table, q->words, BUFFERS).number)
CALL(forget, wanlopheng_forget(LENT, q->setting, BOOK, BUFFERS).number)
CALL(reset, wanlopheng_reset(BOOK, BUFFERS).number)
CALL(respelled, wanlopheng_respelled(LENT, BUFFERS).number)
CALL(keccak256, wanlopheng_keccak256(BYTES).bytes[0])
CALL(sponge_new, (uint32_t)wanlopheng_sponge_new().fill)
CALL(sponge_absorb, (uint32_t)wanlopheng_sponge_absorb(sponge, BYTES).fill)
CALL(sponge_digest, wanlopheng_sponge_digest(sponge).bytes[0])
CALL(report, wanlopheng_report(LENT, q->setting, (uint8_t *)packed, sizeof packed, work, q->work).number)
CALL(soundness, wanlopheng_soundness(q->table, q->words).rule)
CALL(layout_fault, wanlopheng_layout_fault(q->table, q->words))
CALL(unpack, wanlopheng_unpack(BYTES, answer, q->room).number)

/* In the order of KINDS of targets/run.py. Of a name nothing may stay; the hashes are handed bytes, and those from SOUNDNESS on a table alone. */
static void (*const CALLS[])(void) = {
    call_name, call_label, call_namehash, call_screen, call_nfd, call_nfc, call_group, call_emoji, call_trim, call_utf8_write, call_utf8_read, call_name_bytes,
    call_save, call_find, call_moved, call_forget, call_reset, call_respelled, call_keccak256, call_sponge_new, call_sponge_absorb,
    call_sponge_digest, call_report, call_soundness, call_layout_fault, call_unpack};
enum { KINDS = sizeof CALLS / sizeof CALLS[0], SOUNDNESS = KINDS - 3, REPORT = KINDS - 4, HASHES = KINDS - 8 };
static struct { uint32_t used, words, in_order; } most[KINDS];

/* Calls from a frame that lies below the place where the paint starts. */
static __attribute__((noinline)) void call_below(void (*run)(void)) {
    volatile unsigned char gap[GAP];
    gap[0] = gap[GAP - 1] = 0;
    run();
    gap[0] = gap[GAP - 1] = 0;
}

static void at_least(uint32_t *most_yet, uint32_t now) {
    if (now > *most_yet) *most_yet = now;
}

/* What of a text stands in the painted words from `at` on, as rust/engine/tests/painted/mod.rs counts it. */
static void traces(const uint32_t *text, size_t length, size_t at, uint32_t *words, uint32_t *in_order) {
    uint32_t found = 0;
    for (; at < PAINTED; at++) {
        int counts = 0;
        if (lowest[at] == 0 || lowest[at] > 0x10FFFF) continue;
        for (size_t start = 0; start < length; start++) {
            if (text[start] != lowest[at]) continue;
            counts = text[start] >= 0x100;
            for (size_t step = 1; step <= 2; step++) {
                uint32_t row = 1;
                while (start + row < length && at + step * row < PAINTED && lowest[at + step * row] == text[start + row]) row++;
                if (row == 2 && text[start] == text[start + 1]) row = 1; /* one codepoint that was spilled twice */
                if (row > 1 || counts) at_least(in_order, row);
            }
        }
        found += (uint32_t)counts;
    }
    at_least(words, found);
}

/* Whether nine bytes in order of the UTF-8 of a text stand there. */
static int spelled(const uint32_t *text, size_t length, size_t at) {
    static uint8_t bytes[4 * ROOM], pairs[8192];
    const volatile uint8_t *stack = (const volatile uint8_t *)lowest;
    struct wanlopheng_utf8 u = wanlopheng_utf8_write(text, length, bytes, sizeof bytes);
    if (u.number == WANLOPHENG_NO_SCALAR) u = wanlopheng_utf8_write(text, u.place, bytes, sizeof bytes);
    const size_t count = u.length;
    for (size_t i = 0; i < sizeof pairs; i++) pairs[i] = 0;
    for (size_t i = 0; i + NINE <= count; i++) pairs[bytes[i + 1] << 5 | bytes[i] >> 3] |= (uint8_t)(1 << bytes[i] % 8);
    for (size_t i = 4 * at; i + NINE <= 4 * PAINTED; i++) {
        const uint8_t first = stack[i], second = stack[i + 1];
        if ((pairs[second << 5 | first >> 3] >> first % 8 & 1) == 0) continue;
        for (size_t start = 0; start + NINE <= count; start++) {
            size_t row = 0;
            while (row < NINE && stack[i + row] == bytes[start + row]) row++;
            if (row == NINE) return 1;
        }
    }
    return 0;
}

static uint32_t form[ROOM], decomposed[ROOM]; /* the normal form and the full decomposition of the name */
static size_t decomposed_length;

/* The lowest word that is no paint any more. */
static size_t first_used(void) {
    size_t at = 0;
    while (at < PAINTED && lowest[at] == PAINT) at++;
    return at;
}

static int measured(const struct question *q, size_t kind) {
    mark(q);
    paint();
    asked = q;
    call_below(CALLS[kind]);
    const size_t deepest = first_used();
    if (deepest == 0) return 6;
    at_least(&most[kind].used, (uint32_t)(called_at - (uintptr_t)(lowest + deepest)));
    if (kind >= HASHES && kind != REPORT) return 0;
    size_t length = 0;
    for (; length < q->room && answer[length] != 0; length++) form[length] = answer[length];
    traces(form, length, deepest, &most[kind].words, &most[kind].in_order);
    traces(q->name, q->length, deepest, &most[kind].words, &most[kind].in_order);
    traces(decomposed, decomposed_length, deepest, &most[kind].words, &most[kind].in_order);
    if (spelled(form, length, deepest) || spelled(q->name, q->length, deepest)) at_least(&most[kind].in_order, NINE);
    return 0;
}

/* A call that leaves a part of the name, in words or in bytes: the test would find it. */
static void leave_words(void) {
    volatile uint32_t left[8];
    for (size_t i = 0; i < 8; i++) left[i] = asked->name[i];
    sum += left[7];
}

static void leave_bytes(void) {
    volatile uint8_t left[NINE];
    for (size_t i = 0; i < NINE; i++) left[i] = ((const uint8_t *)packed)[i];
    sum += left[8];
}

static int finds(const struct question *q) {
    uint32_t words = 0, in_order = 0;
    asked = q;
    paint();
    call_below(leave_words);
    traces(q->name, q->length, first_used(), &words, &in_order);
    paint();
    call_below(leave_bytes);
    return in_order == 8 && spelled(q->name, q->length, first_used());
}

/* All calls on a name; the payee book is empty before and after. */
static int stack_of(const struct question *q) {
    int failed = 0;
    filled = wanlopheng_utf8_write(q->name, q->length, (uint8_t *)packed, sizeof packed).length;
    decomposed_length = wanlopheng_nfd(q->name, q->length, q->table, q->words, decomposed, ROOM, work, ROOM).length;
    if (filled >= NINE && q->length >= 8 && !finds(q)) return 10;
    for (size_t kind = 0; kind < SOUNDNESS && failed == 0; kind++) failed = measured(q, kind);
    return failed;
}

static int stack_of_table(const uint32_t *table, size_t words) {
    const struct question q = {table, table, words, 0, ROOM, 0, 0};
    int failed = 0;
    filled = pack(table, words, (uint8_t *)packed);
    for (size_t kind = SOUNDNESS; kind < KINDS && failed == 0; kind++) failed = measured(&q, kind);
    return failed;
}

#endif

int main(void) {
    size_t words = port_read("questions", questions, sizeof questions) / 4, at = 3;
    if (words < 4) return 3;
    const uint32_t mode = questions[0], times = questions[1];
    static const uint32_t *starts[4096];
    uint32_t count = questions[2];
    if (count > 4096) return 4;
    for (uint32_t t = 0; t < count; t++) {
        starts[t] = questions + at;
        at += 1 + questions[at];
        if (t >= 2 && t % 4 != 0) continue; /* checking a table takes as long as many names */
        int failed = mode == 0 ? tables(starts[t] + 1, starts[t][0]) : mode == 1 ? stack_of_table(starts[t] + 1, starts[t][0]) : 0;
        if (failed != 0) return mode == 0 ? 7 : failed;
    }
    count = questions[at++];
    for (uint32_t n = 0; n < count; n++) {
        const uint32_t *given = questions + at;
        const uint32_t *table = starts[given[0]];
        struct question q = {table + 1, given + 5, table[0], given[4], given[2], given[3], given[1]};
        at += 5 + q.length;
        int failed = mode == 0 ? answered(&q, n) : mode == 1 ? stack_of(&q) : 0;
        if (failed != 0) return failed;
        for (uint32_t i = 0; mode == 2 && i < times; i++) sum += wanlopheng_name(q.name, q.length, q.table, q.words, 0, answer, q.room, work, q.work).number;
    }
    if (at != words) return 8;
    if (mode == 1) {
        filled = 0;
        for (size_t kind = 0; kind < KINDS; kind++) write_words(most[kind].used, most[kind].words, most[kind].in_order);
    }
    if (mode == 2) write_words(sum, 0, 0);
    return port_write("answers", answers, 4 * filled) ? 0 : 9;
}
