/* What the numbers of the refusals mean, as text for a screen or a log. */
#ifndef WANLOPHENG_TEXT_H
#define WANLOPHENG_TEXT_H

#include <stdint.h>

static inline const char *wanlopheng_text(uint32_t number) {
    switch (number) {
    case 0: return "accepted";
    case 1: return "the table has a layout fault";
    case 2: return "the work area is too small";
    case 3: return "the input has too many codepoints";
    case 4: return "a number that is no Unicode scalar value";
    case 5: return "a codepoint that names may not have";
    case 6: return "an empty label";
    case 7: return "the name is too long in its worked form";
    case 8: return "a low line after another character";
    case 9: return "hyphens in the third and fourth place";
    case 10: return "a fenced character first, last or beside another";
    case 11: return "a text that starts with a mark";
    case 12: return "characters that no one script group has together";
    case 13: return "too many or equal nonspacing marks together";
    case 14: return "the label looks like another one";
    case 15: return "the answer buffer is too small";
    case 16: return "a character with marks that its script group does not list";
    case 17: return "the label is of a restricted script group";
    case 20: return "the table file has another version";
    case 21: return "the table file has a wrong length";
    case 22: return "the table does not fit the buffer";
    case 30: return "bytes that are no UTF-8";
    case 31: return "UTF-8: the answer buffer is too small";
    case 32: return "the report is longer than its buffer";
    case 33: return "the list is too small";
    case 40: return "the area of the payee book has another size";
    case 41: return "the payee book is damaged";
    case 42: return "the normal form is empty";
    case 43: return "the normal form has over 255 codepoints";
    case 44: return "the name is not filed in the payee book";
    case 45: return "the payee book is full";
    case 50: return "NFD, NFC: the full decomposition has too many codepoints";
    case 51: return "NFD, NFC: the work area is too small";
    case 52: return "NFD, NFC: the answer buffer is too small";
    default: return "a refusal of another number";
    }
}

#endif
