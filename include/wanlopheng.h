/* The calls of Wanlopheng for C. Link libwanlopheng.a, which `./install` of the repository writes for x86-64 and `tools/targets` for
 * other machines.
 *
 * A slice crosses as a pointer and a number of elements. The pointer is not null and is aligned, also where there are no
 * elements: hand over the address of any word then. The elements can be read; where the pointer is not to const, they can also be
 * written, and overlap nothing else that is handed over: the answer, the work area, the list, the report and the area of a payee
 * book where a call changes it. That is all that a caller owes.
 *
 * No call keeps a pointer, allocates, or has anything that outlives it: calls on several threads do not disturb each other.
 * The library needs memcpy, memmove and memset, and nothing else.
 */
#ifndef WANLOPHENG_H
#define WANLOPHENG_H

#include <stddef.h>
#include <stdint.h>

#ifdef __cplusplus
extern "C" {
#endif

#define WANLOPHENG_VERSION "0.1.0"

/* Sizes of buffers, in elements. */
#define WANLOPHENG_INPUT_MOST 16384    /* codepoints of an input */
#define WANLOPHENG_ANSWER_WORDS 4096   /* an answer of this size holds every normal form */
#define WANLOPHENG_SCREEN_WORDS 8192   /* an answer of this size holds every screen form by a sound table */
#define WANLOPHENG_WORK_WORDS 8192     /* the least work area */
#define WANLOPHENG_TABLE_WORDS 131074  /* the largest table */
#define WANLOPHENG_FILE_BYTES 524301   /* its file */
#define WANLOPHENG_BOOK_WORDS 16912    /* the area of a payee book */
#define WANLOPHENG_MOVED_WORDS 128     /* a list of this size holds an entry for every slot */
#define WANLOPHENG_GROUPS 256          /* a list of this size holds every group */
#define WANLOPHENG_REPORT_BYTES 323584 /* a buffer of this size holds every report */

/* The numbers of the refusals; wanlopheng_text.h has these texts for a screen. */
enum wanlopheng_refusal {
    WANLOPHENG_ACCEPTED = 0,
    WANLOPHENG_TABLE_LAYOUT = 1,    /* the table has a layout fault */
    WANLOPHENG_WORK_TOO_SMALL = 2,  /* the work area is too small */
    WANLOPHENG_INPUT_TOO_LONG = 3,  /* the input has too many codepoints */
    WANLOPHENG_NO_SCALAR = 4,       /* a number that is no Unicode scalar value */
    WANLOPHENG_DISALLOWED = 5,      /* a codepoint that names may not have */
    WANLOPHENG_EMPTY_LABEL = 6,     /* an empty label */
    WANLOPHENG_NAME_TOO_LONG = 7,   /* the name is too long in its worked form */
    WANLOPHENG_LOW_LINE = 8,        /* a low line after another character */
    WANLOPHENG_HYPHENS = 9,         /* hyphens in the third and fourth place */
    WANLOPHENG_FENCED = 10,         /* a fenced character first, last or beside another */
    WANLOPHENG_LEADING_MARK = 11,   /* a text that starts with a mark */
    WANLOPHENG_NO_GROUP = 12,       /* characters that no one script group has together */
    WANLOPHENG_NSM_RUN = 13,        /* too many or equal nonspacing marks together */
    WANLOPHENG_CONFUSABLE = 14,     /* the label looks like another one */
    WANLOPHENG_ANSWER_TOO_SMALL = 15, /* the answer buffer is too small */
    WANLOPHENG_COMPOUND = 16,       /* a character with marks that its script group does not list */
    WANLOPHENG_RESTRICTED = 17,     /* the label is of a restricted script group */
    WANLOPHENG_FILE_VERSION = 20,   /* the table file has another version */
    WANLOPHENG_FILE_LENGTH = 21,    /* the table file has a wrong length */
    WANLOPHENG_TABLE_TOO_LARGE = 22, /* the table does not fit the buffer */
    WANLOPHENG_ILL_FORMED = 30,     /* bytes that are no UTF-8 */
    WANLOPHENG_UTF8_ANSWER = 31,    /* UTF-8: the answer buffer is too small */
    WANLOPHENG_REPORT_ROOM = 32,    /* the report is longer than its buffer */
    WANLOPHENG_LIST_TOO_SMALL = 33, /* the list is too small */
    WANLOPHENG_BOOK_SIZE = 40, /* the area of the payee book has another size */
    WANLOPHENG_BOOK_DAMAGED = 41, /* the payee book is damaged */
    WANLOPHENG_BOOK_EMPTY_FORM = 42, /* the normal form is empty */
    WANLOPHENG_BOOK_LONG_FORM = 43, /* the normal form has over 255 codepoints */
    WANLOPHENG_BOOK_NOT_FILED = 44, /* the name is not filed in the payee book */
    WANLOPHENG_BOOK_FULL = 45, /* the payee book is full */
    WANLOPHENG_FORM_TOO_LONG = 50, /* NFD, NFC: the full decomposition has too many codepoints */
    WANLOPHENG_FORM_WORK = 51, /* NFD, NFC: the work area is too small */
    WANLOPHENG_FORM_ANSWER = 52 /* NFD, NFC: the answer buffer is too small */
};

/* What a label consists of. */
enum wanlopheng_kind {
    WANLOPHENG_EMOJI = 1, /* emoji alone */
    WANLOPHENG_ASCII = 2, /* ASCII alone */
    WANLOPHENG_GROUP = 3  /* characters of a group */
};

/* What unpacking answers. */
struct wanlopheng_unpack {
    uint32_t number; /* 0: unpacked. 20: a version other than 1 to 4. 21: a wrong length. 22: the answer is too small. */
    size_t count;    /* the number of words, added ones included; 0 beside a refusal */
};

/* Unpacks a table file. After success the answer holds the file's words and then zeros, after a refusal zeros alone. To a file of version 1, which
   lacks the last two sections, two words are added, and to one of version 2 one, the 0 of each empty section: they are counted, and 22 asks for
   their room too. So a word for each four bytes of the file and one more are always room enough. */
struct wanlopheng_unpack wanlopheng_unpack(const uint8_t *file, size_t file_length, uint32_t *answer, size_t answer_length);

/* What the name call answers. */
struct wanlopheng_name {
    uint32_t number; /* 0: accepted. 1 to 17: the refusal. */
    size_t place;    /* the place of the refusal: an index of the name for 4 and 5, a label for 6 to 14, 16 and 17, else 0 */
    size_t length;   /* the length of the normal form; 0 beside a refusal */
    size_t labels;   /* the number of labels; 0 beside a refusal */
};

/* Normalises a name. After success the answer holds the normal form and then zeros, after a refusal zeros alone; the work area,
 * of at least 8,192 words, holds zeros either way. An answer of 4,096 words holds every normal form. With a setting other than 0, labels of
 * restricted groups are refused as 17, after 14 in each label. */
struct wanlopheng_name wanlopheng_name(const uint32_t *input, size_t input_length, const uint32_t *words, size_t words_length,
                                       uint32_t setting, uint32_t *answer, size_t answer_length, uint32_t *work, size_t work_length);

/* Writes the screen form of a name: its normal form, but with every FE0F of each emoji's sequence, and with 39E for each 3BE of a text in labels that
 * are not Greek. `greek` is the number of the Greek group, counted from 0; with one that the table does not have, as 0xFFFFFFFF, no label is Greek.
 * Labels of emoji alone and of ASCII alone never are; in an emoji 3BE stays. Refusals, setting and buffers are those of wanlopheng_name, and 15
 * is judged on the screen form, whose length is answered. It is for a screen alone: file, hash and compare the normal form. By a sound table it
 * has at most twice the worked length. */
struct wanlopheng_name wanlopheng_screen(const uint32_t *input, size_t input_length, const uint32_t *words, size_t words_length,
                                         uint32_t greek, uint32_t setting, uint32_t *answer, size_t answer_length, uint32_t *work,
                                         size_t work_length);

/* What the label call answers. */
struct wanlopheng_label {
    uint32_t number;     /* 0: accepted. 1 to 17: the refusal. */
    size_t place;        /* the place of the refusal: an index of the label for 4 and 5, else 0 */
    size_t length;       /* the length of the normal form; 0 beside a refusal */
    uint32_t kind;       /* 1: emoji. 2: ASCII. 3: a group. 0 beside a refusal. */
    size_t group;        /* the number of the group, counted from 0; 0 for other kinds */
    uint32_t restricted; /* 1: the group is restricted */
};

/* Normalises one label; the setting and the buffers as for a name. */
struct wanlopheng_label wanlopheng_label(const uint32_t *input, size_t input_length, const uint32_t *words, size_t words_length,
                                         uint32_t setting, uint32_t *answer, size_t answer_length, uint32_t *work, size_t work_length);

/* What the search for a group answers. */
struct wanlopheng_group {
    uint32_t number;      /* 0: searched. 1: the words have a layout fault. 3: over 16,384 codepoints. */
    size_t place;         /* 0 */
    uint32_t found;       /* 1: a group holds every codepoint of the text. 0: none does. 0 beside a refusal, as all that follows */
    size_t group;         /* its number, counted from 0; 0 where none was found */
    uint32_t restricted;  /* 1: the group is restricted */
    uint32_t whitelisted; /* 1: the group is whitelisted */
    size_t asked;         /* how often it was asked whether a group holds a codepoint */
};

/* Finds the first group of a table that holds every codepoint of a text. Codepoints that are no scalar values are in no way special. */
struct wanlopheng_group wanlopheng_group(const uint32_t *text, size_t text_length, const uint32_t *words, size_t words_length);

/* What the soundness check answers. */
struct wanlopheng_soundness {
    uint32_t sound; /* 1: sound. 0: a rule is broken, or the layout is at fault. */
    uint32_t rule;  /* the lowest broken rule; 0 for a layout fault, and where the table is sound */
};

/* Checks the words of a table for soundness. */
struct wanlopheng_soundness wanlopheng_soundness(const uint32_t *words, size_t words_length);

/* 1 where the words of a table have a layout fault, 0 where they hold a table. */
uint32_t wanlopheng_layout_fault(const uint32_t *words, size_t words_length);

/* A part of an input. */
struct wanlopheng_part {
    size_t start;  /* the index of its first codepoint */
    size_t length; /* the number of its codepoints */
};

/* The part of an input that remains when 9, A, D and 20 are taken off both ends; for an input of blanks the empty part at its
 * end. Nothing is copied or written: hand on input + start and length, as in
 *     struct wanlopheng_part p = wanlopheng_trim(input, input_length);
 *     wanlopheng_name(input + p.start, p.length, ...);
 * No other call trims. */
struct wanlopheng_part wanlopheng_trim(const uint32_t *input, size_t input_length);

/* What the UTF-8 reader and writer answer. */
struct wanlopheng_utf8 {
    uint32_t number; /* 0: done. 30: no UTF-8 (the reader). 4: no Unicode scalar value (the writer). 31: the answer is too small. */
    size_t place;    /* the byte index where the bad sequence starts for 30, the index of the codepoint for 4, else 0 */
    size_t length;   /* the number of codepoints read or of bytes written; 0 beside a refusal */
};

/* Reads UTF-8 (RFC 3629) into codepoints. After success the answer holds them and then zeros, after a refusal zeros alone. 30 is looked for
 * in all bytes before 31. An answer of as many words as there are bytes is always enough. */
struct wanlopheng_utf8 wanlopheng_utf8_read(const uint8_t *bytes, size_t bytes_length, uint32_t *answer, size_t answer_length);

/* Writes codepoints as UTF-8. After success the answer holds the bytes and then zeros, after a refusal zeros alone. 4 is looked for in all
 * codepoints before 31. An answer of four bytes for each codepoint is always enough. */
struct wanlopheng_utf8 wanlopheng_utf8_write(const uint32_t *codepoints, size_t codepoints_length, uint8_t *answer, size_t answer_length);

/* Normalises a name that is given as UTF-8: 30, with the byte index where the bad sequence starts, before every other refusal; else exactly
 * what wanlopheng_name answers on the codepoints, places in codepoints, and the same in both buffers. After 30 both hold zeros, whatever
 * their sizes. */
struct wanlopheng_name wanlopheng_name_bytes(const uint8_t *bytes, size_t bytes_length, const uint32_t *words, size_t words_length,
                                             uint32_t setting, uint32_t *answer, size_t answer_length, uint32_t *work, size_t work_length);

/* What the call that says which emoji it was answers. */
struct wanlopheng_emoji {
    uint32_t number;  /* 0: done. 1: the words have a layout fault. */
    uint32_t found;   /* 1: a sequence of the table matches. 0: none does, and the rest is 0. */
    size_t taken;     /* how many codepoints of the part it takes, from the start */
    size_t index;     /* the number of the matching record, counted from 0 */
    size_t selectors; /* how many of the codepoints taken are FE0F */
};

/* Finds the emoji sequence that matches the start of a part of a label and takes most of it, each FE0F of the sequence being optional;
 * of sequences that take the same, the first. A 2E in the part is a codepoint like any other. */
struct wanlopheng_emoji wanlopheng_emoji(const uint32_t *part, size_t part_length, const uint32_t *words, size_t words_length);

/* The account of a payee. */
struct wanlopheng_account {
    uint32_t words[8];
};

/* What save, forget and reset of the payee book answer. */
struct wanlopheng_book {
    uint32_t number; /* 0: done. 40: the area has another size. 41: it is damaged. Then the name call's 1 to 17. 42: the normal form is
                        empty. 43: it has over 255 codepoints. 44 (find, forget): the name is not filed. 45 (save): no slot is free. */
    size_t place;    /* that of a refusal of the name call, else 0 */
};

/* What find answers. */
struct wanlopheng_found {
    uint32_t number;                   /* as above */
    size_t place;                      /* as above */
    struct wanlopheng_account account; /* zeros beside a refusal */
};

/* The payee book is an area of 16,912 words: 16 front words, which no call changes, then 64 slots of 264 words (length, 255 words of normal
 * form, 8 words of account). A zeroed area is an empty book. A name is taken in any spelling and filed under its normal form. The answer
 * and the work area are lent as for the name call, and both are zeros after every call. A refusal changes no word of the area. */

/* Files an account under a name: a filed name's account is replaced, another name takes the lowest free slot. */
struct wanlopheng_book wanlopheng_save(const uint32_t *name, size_t name_length, const uint32_t *words, size_t words_length,
                                       uint32_t setting, struct wanlopheng_account account, uint32_t *area, size_t area_length,
                                       uint32_t *answer, size_t answer_length, uint32_t *work, size_t work_length);

/* Answers the account that is filed under a name. The area is only read. */
struct wanlopheng_found wanlopheng_find(const uint32_t *name, size_t name_length, const uint32_t *words, size_t words_length,
                                        uint32_t setting, const uint32_t *area, size_t area_length, uint32_t *answer,
                                        size_t answer_length, uint32_t *work, size_t work_length);

/* Clears the slot of a name, all 264 words, which is free again. */
struct wanlopheng_book wanlopheng_forget(const uint32_t *name, size_t name_length, const uint32_t *words, size_t words_length,
                                         uint32_t setting, uint32_t *area, size_t area_length, uint32_t *answer, size_t answer_length,
                                         uint32_t *work, size_t work_length);

/* Clears every slot, of a damaged book too, and both buffers, which may be of any length. It refuses 40 alone, and clears both then too. */
struct wanlopheng_book wanlopheng_reset(uint32_t *area, size_t area_length, uint32_t *answer, size_t answer_length, uint32_t *work,
                                        size_t work_length);

/* What a call that fills a list answers. After success the list holds the entries and then zeros, after a refusal zeros alone; the work area
 * holds zeros either way. */
struct wanlopheng_list {
    uint32_t number; /* 0: done. 33, the last: the list is too small. The others stand at each call. */
    size_t place;    /* that of a refusal of the label call, else 0 */
    size_t entries;  /* how many entries the list holds; 0 beside a refusal */
};

/* Lists the slots of a payee book that a new table would file differently, ascending, two words each: the slot's number from 0, and the number
 * of the refusal, 0 where the name gets another normal form, 42 or 43 where that is empty or too long for a slot. Refusals: 40, 41, 1, 2, 33.
 * The area is only read. */
struct wanlopheng_list wanlopheng_moved(const uint32_t *area, size_t area_length, const uint32_t *words, size_t words_length,
                                        uint32_t *list, size_t list_length, uint32_t *work, size_t work_length);

/* Lists the groups in which a label could be respelled, by their numbers from 0, ascending, one word each: there are some exactly where the
 * label call refuses it as 14. Refusals: those of the label call before 14, then 33. */
struct wanlopheng_list wanlopheng_respelled(const uint32_t *label, size_t label_length, const uint32_t *words, size_t words_length,
                                            uint32_t *list, size_t list_length, uint32_t *work, size_t work_length);

/* The state of a sponge of Keccak-256. It goes in and comes back by value: keep what a call gives, and hand it to the next. Every value is
 * a state, the fill counting modulo 136. */
struct wanlopheng_sponge {
    uint64_t lanes[25];
    size_t fill; /* how many bytes of the next block are in the lanes */
};

/* A digest. */
struct wanlopheng_digest {
    uint8_t bytes[32];
};

/* Keccak-256 (the original, with padding byte 01, not SHA-3) of bytes that are taken in pieces of any size; the cutting never changes the
 * digest:
 *     struct wanlopheng_sponge s = wanlopheng_sponge_new();
 *     s = wanlopheng_sponge_absorb(s, first, first_length);
 *     s = wanlopheng_sponge_absorb(s, second, second_length);
 *     struct wanlopheng_digest d = wanlopheng_sponge_digest(s);
 * The state is not wiped: less than a block, it holds the bytes taken. */
struct wanlopheng_sponge wanlopheng_sponge_new(void);
struct wanlopheng_sponge wanlopheng_sponge_absorb(struct wanlopheng_sponge sponge, const uint8_t *bytes, size_t bytes_length);
struct wanlopheng_digest wanlopheng_sponge_digest(struct wanlopheng_sponge sponge);

/* Keccak-256 of bytes that stand together. */
struct wanlopheng_digest wanlopheng_keccak256(const uint8_t *bytes, size_t bytes_length);

/* What the name hash answers: what the name call answers, and 32 bytes, zeros beside a refusal. */
struct wanlopheng_namehash {
    struct wanlopheng_name name;
    struct wanlopheng_digest node;
};

/* The name hash of EIP-137 of a name's normal form; everything else as for wanlopheng_name. Refusal 4 can also come last, its place an index
 * of the normal form: with a table that is not sound, that may hold a number that is no Unicode scalar value. The empty normal form has 32
 * zero bytes. */
struct wanlopheng_namehash wanlopheng_namehash(const uint32_t *input, size_t input_length, const uint32_t *words, size_t words_length,
                                               uint32_t setting, uint32_t *answer, size_t answer_length, uint32_t *work,
                                               size_t work_length);

/* What the report answers. */
struct wanlopheng_report {
    uint32_t number; /* 0: done. Else that of the name call's refusal, 1 to 14, 16 and 17; then 32: the report is longer than its buffer. */
    size_t place;    /* that of a refusal of the name call, else 0 */
    size_t length;   /* the number of bytes of the report; 0 beside a refusal */
};

/* Writes a line for each token of a name, in input order, each ended by 0A: `text` or `emoji`; where the token's input starts and ends, the
 * place after its last, both counted in codepoints from the start of the name; then its codepoints, in NFC or stripped of FE0F, in upper-case
 * hexadecimal, in braces where the table says that they should be escaped. Single blanks part these. Ignored codepoints count to the token
 * before them, or to the first one of their label. After success the buffer holds the report and then zeros, after a refusal zeros alone;
 * the work area holds zeros. The empty name has no lines. */
struct wanlopheng_report wanlopheng_report(const uint32_t *input, size_t input_length, const uint32_t *words, size_t words_length,
                                           uint32_t setting, uint8_t *out, size_t out_length, uint32_t *work, size_t work_length);

/* What the calls for NFD and NFC answer. The full decomposition of the text needs room in the answer and in the work area,
 * for NFC too. */
struct wanlopheng_form {
    uint32_t number; /* 0: done. 1: the words have a layout fault. 50: the full decomposition has over 4,096 codepoints.
                        51: the work area is too small for it. 52: the answer is too small for it. Tried in this order. */
    size_t length;   /* the number of codepoints; 0 beside a refusal */
};

/* NFD of a text by the words of a table. After success the answer holds it and then zeros, after a refusal zeros alone; the
 * work area holds zeros. */
struct wanlopheng_form wanlopheng_nfd(const uint32_t *text, size_t text_length, const uint32_t *words, size_t words_length,
                                      uint32_t *answer, size_t answer_length, uint32_t *work, size_t work_length);

/* NFC of a text, likewise. */
struct wanlopheng_form wanlopheng_nfc(const uint32_t *text, size_t text_length, const uint32_t *words, size_t words_length,
                                      uint32_t *answer, size_t answer_length, uint32_t *work, size_t work_length);

#ifdef __cplusplus
}
#endif

#endif
