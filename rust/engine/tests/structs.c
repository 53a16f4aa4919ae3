/* What header.rs compiles: for every struct of the header its size, and for every field its offset and size. */
#include <stdio.h>
#include "wanlopheng.h"

#define STRUCT(s) printf(#s " %zu\n", sizeof(struct s))
#define FIELD(s, f) printf(#s "." #f " %zu %zu\n", offsetof(struct s, f), sizeof(((struct s *)0)->f))

int main(void) {
    STRUCT(wanlopheng_unpack);
    FIELD(wanlopheng_unpack, number);
    FIELD(wanlopheng_unpack, count);
    STRUCT(wanlopheng_name);
    FIELD(wanlopheng_name, number);
    FIELD(wanlopheng_name, place);
    FIELD(wanlopheng_name, length);
    FIELD(wanlopheng_name, labels);
    STRUCT(wanlopheng_label);
    FIELD(wanlopheng_label, number);
    FIELD(wanlopheng_label, place);
    FIELD(wanlopheng_label, length);
    FIELD(wanlopheng_label, kind);
    FIELD(wanlopheng_label, group);
    FIELD(wanlopheng_label, restricted);
    STRUCT(wanlopheng_group);
    FIELD(wanlopheng_group, number);
    FIELD(wanlopheng_group, place);
    FIELD(wanlopheng_group, found);
    FIELD(wanlopheng_group, group);
    FIELD(wanlopheng_group, restricted);
    FIELD(wanlopheng_group, whitelisted);
    FIELD(wanlopheng_group, asked);
    STRUCT(wanlopheng_soundness);
    FIELD(wanlopheng_soundness, sound);
    FIELD(wanlopheng_soundness, rule);
    STRUCT(wanlopheng_part);
    FIELD(wanlopheng_part, start);
    FIELD(wanlopheng_part, length);
    STRUCT(wanlopheng_utf8);
    FIELD(wanlopheng_utf8, number);
    FIELD(wanlopheng_utf8, place);
    FIELD(wanlopheng_utf8, length);
    STRUCT(wanlopheng_emoji);
    FIELD(wanlopheng_emoji, number);
    FIELD(wanlopheng_emoji, found);
    FIELD(wanlopheng_emoji, taken);
    FIELD(wanlopheng_emoji, index);
    FIELD(wanlopheng_emoji, selectors);
    STRUCT(wanlopheng_account);
    FIELD(wanlopheng_account, words);
    STRUCT(wanlopheng_book);
    FIELD(wanlopheng_book, number);
    FIELD(wanlopheng_book, place);
    STRUCT(wanlopheng_found);
    FIELD(wanlopheng_found, number);
    FIELD(wanlopheng_found, place);
    FIELD(wanlopheng_found, account);
    STRUCT(wanlopheng_list);
    FIELD(wanlopheng_list, number);
    FIELD(wanlopheng_list, place);
    FIELD(wanlopheng_list, entries);
    STRUCT(wanlopheng_sponge);
    FIELD(wanlopheng_sponge, lanes);
    FIELD(wanlopheng_sponge, fill);
    STRUCT(wanlopheng_digest);
    FIELD(wanlopheng_digest, bytes);
    STRUCT(wanlopheng_namehash);
    FIELD(wanlopheng_namehash, name);
    FIELD(wanlopheng_namehash, node);
    STRUCT(wanlopheng_report);
    FIELD(wanlopheng_report, number);
    FIELD(wanlopheng_report, place);
    FIELD(wanlopheng_report, length);
    STRUCT(wanlopheng_form);
    FIELD(wanlopheng_form, number);
    FIELD(wanlopheng_form, length);
    return 0;
}
