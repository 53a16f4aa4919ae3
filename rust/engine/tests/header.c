/* What header.rs compiles: the header as C reads it, and calls through it. */
#include "wanlopheng.h"

static int differs(struct wanlopheng_unpack r, uint32_t number, size_t count) {
    return r.number != number || r.count != count;
}

static int other(struct wanlopheng_form r, uint32_t number, size_t length) {
    return r.number != number || r.length != length;
}

/* NFD and NFC by a table in which E0 is 61 300 and 300 has class 230. */
static int forms(void) {
    const uint32_t table[] = {0, 0, 0, 0, 0, 0, 4, 0xE0, 2, 0x61, 0x300, 0, 1, 0, 3, 0x300, 0x300, 230, 0, 0, 0, 0};
    const size_t words = sizeof table / sizeof table[0];
    const uint32_t text[] = {0xE0};
    uint32_t answer[3] = {7, 7, 7}, work[2] = {7, 7};
    if (other(wanlopheng_nfd(text, 1, table, words, answer, 3, work, 2), 0, 2)) return 11;
    if (answer[0] != 0x61 || answer[1] != 0x300 || answer[2] != 0 || work[0] != 0 || work[1] != 0) return 12;
    answer[1] = answer[2] = work[1] = 7;
    if (other(wanlopheng_nfc(text, 1, table, words, answer, 3, work, 2), 0, 1)) return 13;
    if (answer[0] != 0xE0 || answer[1] != 0 || answer[2] != 0 || work[0] != 0 || work[1] != 0) return 14;
    if (other(wanlopheng_nfd(text, 1, table, words, answer, 1, work, 2), 52, 0) || answer[0] != 0) return 15;
    if (other(wanlopheng_nfc(text, 1, table, words, answer, 1, work, 1), 51, 0)) return 16;
    if (other(wanlopheng_nfc(text, 1, table, words - 1, answer, 3, work, 2), 1, 0)) return 17;
    static uint32_t longest[WANLOPHENG_ANSWER_WORDS + 1];
    answer[0] = work[0] = 7;
    if (other(wanlopheng_nfd(longest, WANLOPHENG_ANSWER_WORDS + 1, table, words, answer, 3, work, 2), WANLOPHENG_FORM_TOO_LONG, 0)) return 18;
    if (other(wanlopheng_nfc(longest, WANLOPHENG_ANSWER_WORDS + 1, table, words, answer, 3, work, 2), WANLOPHENG_FORM_TOO_LONG, 0)) return 19;
    if (other(wanlopheng_nfc(longest, WANLOPHENG_ANSWER_WORDS, table, words, answer, 3, work, 2), 51, 0) || answer[0] != 0 || work[0] != 0) return 20;
    return 0;
}

/* The name, label and soundness calls by a table that has 61 alone, to which 41 is mapped. */
static int calls(void) {
    const uint32_t table[] = {2, 0x61, 0x61, 0, 0, 0, 0, 3, 0x41, 1, 0x61, 0, 0, 1, 0, 0, 4, 1, 2, 0x61, 0x61, 0, 0, 0};
    const size_t words = sizeof table / sizeof table[0];
    const uint32_t name[] = {0x41, 0x2E, 0x61, 0x41};
    uint32_t answer[6] = {7, 7, 7, 7, 7, 7}, work[WANLOPHENG_WORK_WORDS];
    for (size_t i = 0; i < WANLOPHENG_WORK_WORDS; i++) work[i] = 7;
    struct wanlopheng_name r = wanlopheng_name(name, 4, table, words, 0, answer, 6, work, WANLOPHENG_WORK_WORDS);
    if (r.number != 0 || r.place != 0 || r.length != 4 || r.labels != 2) return 21;
    if (answer[0] != 0x61 || answer[1] != 0x2E || answer[2] != 0x61 || answer[3] != 0x61 || answer[4] || answer[5]) return 22;
    for (size_t i = 0; i < WANLOPHENG_WORK_WORDS; i++) if (work[i] != 0) return 23;
    r = wanlopheng_name(name, 4, table, words, 0, answer, 3, work, WANLOPHENG_WORK_WORDS);
    if (r.number != WANLOPHENG_ANSWER_TOO_SMALL || r.place != 0 || r.length != 0 || r.labels != 0 || answer[0] || answer[1] || answer[2]) return 24;
    struct wanlopheng_label l = wanlopheng_label(name, 1, table, words, 0, answer, 6, work, WANLOPHENG_WORK_WORDS);
    if (l.number != 0 || l.length != 1 || l.kind != WANLOPHENG_ASCII || l.group != 0 || l.restricted != 0 || answer[0] != 0x61) return 25;
    l = wanlopheng_label(name, 4, table, words, 0, answer, 6, work, WANLOPHENG_WORK_WORDS);
    if (l.number != 5 || l.place != 1 || l.length != 0 || l.kind != 0 || answer[0] != 0) return 26;
    struct wanlopheng_group g = wanlopheng_group(name + 2, 1, table, words);
    if (g.number || g.place || g.found != 1 || g.group != 0 || g.restricted != 1 || g.whitelisted != 0 || g.asked != 1) return 28;
    g = wanlopheng_group(name + 1, 3, table, words);
    if (g.number || g.place || g.found || g.group || g.restricted || g.whitelisted || g.asked != 1) return 29;
    if (wanlopheng_group(name, 1, table, words - 1).number != 1) return 30;
    struct wanlopheng_soundness sound = wanlopheng_soundness(table, words), fault = wanlopheng_soundness(table, words - 1);
    if (sound.sound != 1 || sound.rule != 0 || fault.sound != 0 || fault.rule != 0) return 27;
    return 0;
}

/* A label of a restricted group whose number is neither 0 nor 1, so that no two fields of the answer are equal; and its last
 * codepoint refused. */
static int fields(void) {
    const uint32_t table[] = {2, 0x13A0, 0x13A1, 0, 0, 0, 0, 0, 0, 0, 1, 0, 0, 12, 0, 0, 0, 0, 0, 0, 0, 0, 1, 2, 0x13A0, 0x13A1, 0, 0, 0};
    const size_t words = sizeof table / sizeof table[0];
    const uint32_t label[] = {0x13A0, 0x13A1, 0x62};
    uint32_t answer[2] = {7, 7}, work[WANLOPHENG_WORK_WORDS] = {7};
    struct wanlopheng_label l = wanlopheng_label(label, 2, table, words, 0, answer, 2, work, WANLOPHENG_WORK_WORDS);
    if (l.number != 0 || l.place != 0 || l.length != 2 || l.kind != WANLOPHENG_GROUP || l.group != 4 || l.restricted != 1) return 31;
    if (answer[0] != 0x13A0 || answer[1] != 0x13A1 || work[0] != 0) return 32;
    l = wanlopheng_label(label, 3, table, words, 0, answer, 2, work, WANLOPHENG_WORK_WORDS);
    if (l.number != 5 || l.place != 2 || l.length != 0 || l.kind != 0 || l.group != 0 || l.restricted != 0) return 33;
    l = wanlopheng_label(label, 2, table, words, 2, answer, 2, work, WANLOPHENG_WORK_WORDS);
    if (l.number != 17 || l.place != 0 || l.length != 0 || l.kind != 0 || answer[0] != 0) return 35;
    struct wanlopheng_name r = wanlopheng_name(label, 3, table, words, 0, answer, 2, work, WANLOPHENG_WORK_WORDS);
    if (r.number != 5 || r.place != 2 || r.length != 0 || r.labels != 0) return 34;
    return 0;
}

/* Blanks off both ends, and the part handed on without a copy. */
static int trimmed(void) {
    const uint32_t table[] = {2, 0x61, 0x61, 0, 0, 0, 0, 3, 0x41, 1, 0x61, 0, 0, 1, 0, 0, 4, 1, 2, 0x61, 0x61, 0, 0, 0};
    const size_t words = sizeof table / sizeof table[0];
    const uint32_t pasted[] = {0x20, 0x9, 0x61, 0x41, 0xD, 0xA};
    uint32_t answer[2] = {7, 7}, work[WANLOPHENG_WORK_WORDS];
    struct wanlopheng_part p = wanlopheng_trim(pasted, 6);
    if (p.start != 2 || p.length != 2) return 31;
    struct wanlopheng_name r = wanlopheng_name(pasted, 6, table, words, 0, answer, 2, work, WANLOPHENG_WORK_WORDS);
    if (r.number != 5 || r.place != 0) return 32;
    r = wanlopheng_name(pasted + p.start, p.length, table, words, 0, answer, 2, work, WANLOPHENG_WORK_WORDS);
    if (r.number != 0 || r.length != 2 || answer[0] != 0x61 || answer[1] != 0x61) return 33;
    p = wanlopheng_trim(pasted, 2);
    if (p.start != 2 || p.length != 0) return 34;
    return 0;
}

/* Which emoji it was, by a table that has 2764 FE0F and 1F600 FE0F FE0F alone. */
static int emojis(void) {
    const uint32_t table[] = {0, 0, 0, 0, 0, 0, 0, 7, 2, 0x2764, 0xFE0F, 3, 0x1F600, 0xFE0F, 0xFE0F, 1, 0, 0, 0, 0, 0, 0};
    const size_t words = sizeof table / sizeof table[0];
    const uint32_t part[] = {0x1F600, 0xFE0F, 0xFE0F, 0xFE0F, 0x61};
    struct wanlopheng_emoji e = wanlopheng_emoji(part, 5, table, words);
    if (e.number != 0 || e.found != 1 || e.taken != 3 || e.index != 1 || e.selectors != 2) return 41;
    e = wanlopheng_emoji(part + 4, 1, table, words);
    if (e.number != 0 || e.found != 0 || e.taken != 0 || e.index != 0 || e.selectors != 0) return 42;
    e = wanlopheng_emoji(part, 5, table, words - 1);
    if (e.number != 1 || e.found != 0 || e.taken != 0 || e.index != 0 || e.selectors != 0) return 43;
    return 0;
}

/* Bytes to codepoints and back, and a name as bytes, by a table that has 61 alone, to which 41 is mapped. */
static int texts(void) {
    const uint32_t table[] = {2, 0x61, 0x61, 0, 0, 0, 0, 3, 0x41, 1, 0x61, 0, 0, 1, 0, 0, 4, 1, 2, 0x61, 0x61, 0, 0, 0};
    const size_t words = sizeof table / sizeof table[0];
    const uint8_t text[] = {0x41, 0xE2, 0x89, 0xA2, 0xF0, 0x9F, 0x92};
    const uint32_t points[] = {0x41, 0x2262, 0xD800};
    uint32_t answer[3] = {7, 7, 7}, work[WANLOPHENG_WORK_WORDS] = {7};
    uint8_t bytes[5] = {7, 7, 7, 7, 7};
    struct wanlopheng_utf8 u = wanlopheng_utf8_read(text, 4, answer, 3);
    if (u.number != 0 || u.place != 0 || u.length != 2 || answer[0] != 0x41 || answer[1] != 0x2262 || answer[2] != 0) return 51;
    u = wanlopheng_utf8_read(text, 7, answer, 1);
    if (u.number != WANLOPHENG_ILL_FORMED || u.place != 4 || u.length != 0 || answer[0] != 0 || answer[1] != 0x2262) return 52;
    u = wanlopheng_utf8_read(text, 4, answer, 1);
    if (u.number != WANLOPHENG_UTF8_ANSWER || u.place != 0 || u.length != 0) return 53;
    u = wanlopheng_utf8_write(points, 2, bytes, 5);
    if (u.number != 0 || u.place != 0 || u.length != 4) return 54;
    if (bytes[0] != 0x41 || bytes[1] != 0xE2 || bytes[2] != 0x89 || bytes[3] != 0xA2 || bytes[4] != 0) return 55;
    u = wanlopheng_utf8_write(points, 3, bytes, 2);
    if (u.number != WANLOPHENG_NO_SCALAR || u.place != 2 || u.length != 0 || bytes[0] != 0 || bytes[2] != 0x89) return 56;
    struct wanlopheng_name r = wanlopheng_name_bytes(text, 1, table, words, 0, answer, 3, work, WANLOPHENG_WORK_WORDS);
    if (r.number != 0 || r.place != 0 || r.length != 1 || r.labels != 1 || answer[0] != 0x61 || answer[1] || work[0]) return 57;
    answer[2] = work[0] = 7;
    r = wanlopheng_name_bytes(text + 1, 2, table, words - 1, 0, answer, 3, work, 1);
    if (r.number != 30 || r.place != 0 || r.length != 0 || r.labels != 0 || answer[0] || answer[2] || work[0]) return 58;
    return 0;
}

/* The payee book: saved by one spelling, found by the other, forgotten, reset; the account by value in both directions. */
static int book(void) {
    const uint32_t table[] = {2, 0x61, 0x61, 0, 0, 0, 0, 3, 0x41, 1, 0x61, 0, 0, 1, 0, 0, 4, 1, 2, 0x61, 0x61, 0, 0, 0};
    const size_t words = sizeof table / sizeof table[0];
    const uint32_t name[] = {0x41, 0x2E, 0x61, 0x62};
    static uint32_t area[WANLOPHENG_BOOK_WORDS], work[WANLOPHENG_WORK_WORDS];
    const struct wanlopheng_account account = {{1, 2, 3, 4, 5, 6, 7, 0xFFFFFFFF}};
    uint32_t answer[4] = {7, 7, 7, 7};
    area[0] = area[15] = 9;
    struct wanlopheng_book b = wanlopheng_save(name, 1, table, words, 0, account, area, WANLOPHENG_BOOK_WORDS, answer, 4, work, WANLOPHENG_WORK_WORDS);
    if (b.number || b.place || area[16] != 1 || area[17] != 0x61 || area[18] || area[16 + 256] != 1 || area[16 + 263] != 0xFFFFFFFF) return 71;
    if (answer[0] || answer[1] || answer[2] || answer[3]) return 72;
    struct wanlopheng_found f = wanlopheng_find(name + 2, 1, table, words, 0, area, WANLOPHENG_BOOK_WORDS, answer, 4, work, WANLOPHENG_WORK_WORDS);
    if (f.number || f.place) return 73;
    for (size_t i = 0; i < 8; i++) if (f.account.words[i] != account.words[i]) return 74;
    f = wanlopheng_find(name + 2, 2, table, words, 0, area, WANLOPHENG_BOOK_WORDS, answer, 4, work, WANLOPHENG_WORK_WORDS);
    if (f.number != WANLOPHENG_DISALLOWED || f.place != 1 || f.account.words[0] || f.account.words[7]) return 75;
    b = wanlopheng_forget(name, 3, table, words, 0, area, WANLOPHENG_BOOK_WORDS, answer, 4, work, WANLOPHENG_WORK_WORDS);
    if (b.number != WANLOPHENG_BOOK_NOT_FILED || b.place) return 76;
    b = wanlopheng_forget(name + 2, 1, table, words, 0, area, WANLOPHENG_BOOK_WORDS, answer, 4, work, WANLOPHENG_WORK_WORDS);
    if (b.number) return 77;
    for (size_t i = 16; i < WANLOPHENG_BOOK_WORDS; i++) if (area[i]) return 78;
    area[16 + 263] = answer[3] = 7;
    f = wanlopheng_find(name, 0, table, words, 0, area, WANLOPHENG_BOOK_WORDS, answer, 4, work, WANLOPHENG_WORK_WORDS);
    if (f.number != WANLOPHENG_BOOK_DAMAGED || answer[3]) return 79;
    b = wanlopheng_reset(area, WANLOPHENG_BOOK_WORDS, answer, 4, work, 1);
    if (b.number || b.place || area[16 + 263] || area[0] != 9 || area[15] != 9) return 80;
    f = wanlopheng_find(name, 0, table, words, 0, area, WANLOPHENG_BOOK_WORDS, answer, 4, work, WANLOPHENG_WORK_WORDS);
    if (f.number != WANLOPHENG_BOOK_EMPTY_FORM) return 81;
    b = wanlopheng_reset(area, WANLOPHENG_BOOK_WORDS - 1, answer, 4, work, 1);
    if (b.number != WANLOPHENG_BOOK_SIZE) return 82;
    return 0;
}

/* A book of 61, 62 and 41 by a table that has 61 alone, to which 41 is mapped; and 3BF, which a group with 43E could respell. */
static int lists(void) {
    const uint32_t table[] = {2, 0x61, 0x61, 0, 0, 0, 0, 3, 0x41, 1, 0x61, 0, 0, 1, 0, 0, 4, 1, 2, 0x61, 0x61, 0, 0, 0};
    const size_t words = sizeof table / sizeof table[0];
    const uint32_t alike[] = {4, 0x3BF, 0x3BF, 0x43E, 0x43E, 0, 0, 0, 0, 0, 0, 0, 1, 0, 0, 8, 0, 2, 0x3BF, 0x3BF, 0, 2, 0x43E, 0x43E, 4, 1, 0x43E, 1, 0x3BF, 0, 0};
    const uint32_t label[] = {0x3BF, 0x43E};
    static uint32_t area[WANLOPHENG_BOOK_WORDS], work[WANLOPHENG_WORK_WORDS];
    uint32_t list[6] = {7, 7, 7, 7, 7, 7};
    area[0] = 9, area[16] = area[16 + 264] = area[16 + 2 * 264] = 1, area[17] = 0x61, area[17 + 264] = 0x62, area[17 + 2 * 264] = 0x41;
    work[0] = 7;
    struct wanlopheng_list l = wanlopheng_moved(area, WANLOPHENG_BOOK_WORDS, table, words, list, 6, work, WANLOPHENG_WORK_WORDS);
    if (l.number || l.place || l.entries != 2 || list[0] != 1 || list[1] != WANLOPHENG_DISALLOWED || list[2] != 2 || list[3]) return 111;
    if (list[4] || list[5] || work[0] || area[0] != 9) return 112;
    l = wanlopheng_moved(area, WANLOPHENG_BOOK_WORDS, table, words, list, 3, work, WANLOPHENG_WORK_WORDS);
    if (l.number != WANLOPHENG_LIST_TOO_SMALL || l.place || l.entries || list[0] || list[2]) return 113;
    l = wanlopheng_moved(area, WANLOPHENG_BOOK_WORDS - 1, table, words, list, 6, work, WANLOPHENG_WORK_WORDS);
    if (l.number != WANLOPHENG_BOOK_SIZE || l.entries) return 114;
    list[1] = 7;
    l = wanlopheng_respelled(label, 1, alike, sizeof alike / sizeof alike[0], list, 2, work, WANLOPHENG_WORK_WORDS);
    if (l.number || l.place || l.entries != 1 || list[0] != 1 || list[1]) return 115;
    l = wanlopheng_respelled(label, 1, alike, sizeof alike / sizeof alike[0], list, 0, work, WANLOPHENG_WORK_WORDS);
    if (l.number != WANLOPHENG_LIST_TOO_SMALL || l.entries || list[0] != 1) return 116;
    l = wanlopheng_respelled(label + 1, 1, alike, sizeof alike / sizeof alike[0], list, 2, work, WANLOPHENG_WORK_WORDS);
    if (l.number || l.entries || list[0]) return 117;
    l = wanlopheng_respelled(label, 2, alike, sizeof alike / sizeof alike[0], list, 2, work, WANLOPHENG_WORK_WORDS);
    return l.number != WANLOPHENG_NO_GROUP || l.place || l.entries ? 118 : 0;
}

/* Keccak-256 of "abc", whole and in two pieces; the name hash of "eth"; and a fill that counts modulo 136. */
static int hashes(void) {
    const uint8_t abc[] = {0x61, 0x62, 0x63};
    struct wanlopheng_digest d = wanlopheng_keccak256(abc, 3);
    if (d.bytes[0] != 0x4E || d.bytes[1] != 0x03 || d.bytes[30] != 0x6C || d.bytes[31] != 0x45) return 91;
    struct wanlopheng_sponge s = wanlopheng_sponge_absorb(wanlopheng_sponge_absorb(wanlopheng_sponge_new(), abc, 2), abc + 2, 1);
    struct wanlopheng_digest e = wanlopheng_sponge_digest(s);
    if (s.fill != 3 || s.lanes[0] != 0x636261 || s.lanes[24] != 0) return 92;
    for (size_t i = 0; i < 32; i++) if (e.bytes[i] != d.bytes[i]) return 93;
    const uint32_t table[] = {2, 0x65, 0x74, 0, 0, 0, 0, 0, 0, 0, 1, 0, 0, 4, 0, 2, 0x65, 0x74, 0, 0, 0};
    const size_t words = sizeof table / sizeof table[0];
    const uint32_t eth[] = {0x65, 0x74, 0x68}, disallowed[] = {0x40};
    uint32_t answer[4] = {7, 7, 7, 7}, work[WANLOPHENG_WORK_WORDS] = {7};
    struct wanlopheng_namehash h = wanlopheng_namehash(eth, 3, table, words, 0, answer, 4, work, WANLOPHENG_WORK_WORDS);
    if (h.name.number != 0 || h.name.place != 0 || h.name.length != 3 || h.name.labels != 1 || answer[2] != 0x68 || answer[3] || work[0]) return 95;
    if (h.node.bytes[0] != 0x93 || h.node.bytes[1] != 0xCD || h.node.bytes[30] != 0xC4 || h.node.bytes[31] != 0xAE) return 96;
    h = wanlopheng_namehash(disallowed, 1, table, words, 0, answer, 4, work, WANLOPHENG_WORK_WORDS);
    if (h.name.number != 5 || h.name.place != 0 || h.name.length != 0 || h.name.labels != 0 || answer[0] || h.node.bytes[0]) return 97;
    s.fill += 136;
    e = wanlopheng_sponge_digest(s);
    for (size_t i = 0; i < 32; i++) if (e.bytes[i] != d.bytes[i]) return 94;
    return 0;
}

/* The report, by a table that has 61 alone, to which 41 is mapped, ignores AD, knows 1F468 FE0F 200D 2764 and escapes 200D. */
static int reports(void) {
    const uint32_t table[] = {2, 0x61, 0x61, 2, 0xAD, 0xAD, 0, 0, 0, 3, 0x41, 1, 0x61, 0, 5, 4, 0x1F468, 0xFE0F, 0x200D, 0x2764, 1, 0, 0,
                              4, 1, 2, 0x61, 0x61, 0, 2, 0x200D, 0x200D, 0};
    const size_t words = sizeof table / sizeof table[0];
    const uint32_t name[] = {0xAD, 0x41, 0x61, 0xAD, 0x1F468, 0x200D, 0x2764, 0x2E, 0x61};
    const char due[] = "text 0 4 61 61\nemoji 4 7 1F468 {200D} 2764\ntext 8 9 61\n";
    uint8_t out[64];
    uint32_t work[WANLOPHENG_WORK_WORDS] = {7};
    for (size_t i = 0; i < 64; i++) out[i] = 7;
    struct wanlopheng_report r = wanlopheng_report(name, 9, table, words, 0, out, 64, work, WANLOPHENG_WORK_WORDS);
    if (r.number != 0 || r.place != 0 || r.length != sizeof due - 1 || work[0]) return 111;
    for (size_t i = 0; i < 64; i++) if (out[i] != (i < sizeof due - 1 ? (uint8_t)due[i] : 0)) return 112;
    r = wanlopheng_report(name, 9, table, words, 0, out, sizeof due - 2, work, WANLOPHENG_WORK_WORDS);
    if (r.number != WANLOPHENG_REPORT_ROOM || r.place != 0 || r.length != 0 || out[0] || out[sizeof due - 3] || out[sizeof due - 2] != 10) return 113;
    r = wanlopheng_report(name, 9, table, words, 1, out, 64, work, WANLOPHENG_WORK_WORDS);
    if (r.number != WANLOPHENG_RESTRICTED || r.place != 0 || out[sizeof due - 2]) return 114;
    r = wanlopheng_report(name, 0, table, words, 0, out, 0, work, WANLOPHENG_WORK_WORDS);
    if (r.number != 0 || r.length != 0) return 115;
    return 0;
}

/* The screen form, by a table of two groups that both have 3BE, with 61 and with 3B1, and the emoji 2764 FE0F. */
static int screens(void) {
    const uint32_t table[] = {6, 0x61, 0x61, 0x3B1, 0x3B1, 0x3BE, 0x3BE, 0, 0, 0, 0, 3, 0x39E, 1, 0x3BE, 0, 3, 2, 0x2764, 0xFE0F, 1, 0, 0,
                              12, 0, 4, 0x61, 0x61, 0x3BE, 0x3BE, 1, 4, 0x3B1, 0x3B1, 0x3BE, 0x3BE, 0, 0, 0};
    const size_t words = sizeof table / sizeof table[0];
    const uint32_t name[] = {0x61, 0x3BE, 0x2764, 0x2E, 0x3B1, 0x39E}, latin[] = {0x61, 0x39E, 0x2764, 0xFE0F, 0x2E, 0x3B1, 0x3BE};
    uint32_t answer[9], work[WANLOPHENG_WORK_WORDS] = {7};
    for (size_t i = 0; i < 9; i++) answer[i] = 7;
    struct wanlopheng_name r = wanlopheng_screen(name, 6, table, words, 1, 0, answer, 9, work, WANLOPHENG_WORK_WORDS);
    if (r.number != 0 || r.place != 0 || r.length != 7 || r.labels != 2 || work[0]) return 121;
    for (size_t i = 0; i < 9; i++) if (answer[i] != (i < 7 ? latin[i] : 0)) return 122;
    r = wanlopheng_screen(name, 6, table, words, 0, 0, answer, 7, work, WANLOPHENG_WORK_WORDS);
    if (r.number != 0 || r.length != 7 || answer[1] != 0x3BE || answer[6] != 0x39E) return 123;
    r = wanlopheng_screen(name, 6, table, words, 0xFFFFFFFFu, 0, answer, 7, work, WANLOPHENG_WORK_WORDS);
    if (r.number != 0 || r.length != 7 || answer[1] != 0x39E || answer[6] != 0x39E) return 124;
    r = wanlopheng_screen(name, 6, table, words, 1, 0, answer, 6, work, WANLOPHENG_WORK_WORDS);
    if (r.number != WANLOPHENG_ANSWER_TOO_SMALL || r.place || r.length || r.labels || answer[0] || answer[5] || answer[6] != 0x39E) return 125;
    r = wanlopheng_screen(name, 6, table, words, 0, 1, answer, 7, work, WANLOPHENG_WORK_WORDS);
    if (r.number != WANLOPHENG_RESTRICTED || r.place != 1 || r.length || r.labels || answer[6]) return 126;
    r = wanlopheng_screen(name, 6, table, words - 1, 0, 0, answer, 7, work, WANLOPHENG_WORK_WORDS);
    return r.number != WANLOPHENG_TABLE_LAYOUT ? 127 : 0;
}

int main(void) {
    uint8_t file[] = {3, 0, 0, 0, 2, 1, 2, 3, 4, 0, 0, 0, 9};
    uint32_t answer[4] = {7, 7, 7, 7};
    if (differs(wanlopheng_unpack(file, sizeof file, answer, 3), 0, 2)) return 1;
    if (answer[0] != 0x01020304 || answer[1] != 9 || answer[2] != 0) return 2;
    answer[0] = 7;
    if (differs(wanlopheng_unpack(file, sizeof file, answer, 1), 22, 0)) return 3;
    if (answer[0] != 0 || answer[1] != 9) return 4;
    if (differs(wanlopheng_unpack(file, 0, answer, 2), 21, 0)) return 5;
    if (answer[0] != 0 || answer[1] != 0) return 6;
    file[0] = 2;
    if (differs(wanlopheng_unpack(file, sizeof file, answer, 2), 22, 0)) return 101;
    if (differs(wanlopheng_unpack(file, sizeof file, answer, 3), 0, 3)) return 102;
    file[0] = 1;
    if (differs(wanlopheng_unpack(file, sizeof file, answer, 3), 22, 0)) return 104;
    if (differs(wanlopheng_unpack(file, sizeof file, answer, 4), 0, 4)) return 105;
    file[0] = 4;
    if (differs(wanlopheng_unpack(file, sizeof file, answer, 2), 0, 2)) return 106;
    file[0] = 5;
    if (differs(wanlopheng_unpack(file, sizeof file, answer, 4), 20, 0)) return 103;
    const uint32_t table[] = {0, 0, 0, 0, 0, 0, 0, 0, 1, 0, 0, 0, 0, 0, 0};
    const size_t words = sizeof table / sizeof table[0];
    if (wanlopheng_layout_fault(table, words) != 0) return 7;
    if (wanlopheng_layout_fault(table, words - 1) != 1) return 8;
    int failed = calls();
    if (failed == 0) failed = fields();
    if (failed == 0) failed = emojis();
    if (failed == 0) failed = hashes();
    if (failed == 0) failed = forms();
    if (failed == 0) failed = texts();
    if (failed == 0) failed = book();
    if (failed == 0) failed = lists();
    if (failed == 0) failed = reports();
    if (failed == 0) failed = screens();
    return failed != 0 ? failed : trimmed();
}
