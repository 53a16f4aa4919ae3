/* What the library's sources take from <stddef.h>, for the toolchain's clang, which has no headers of its own. */
#ifndef WANLOPHENG_STDDEF_H
#define WANLOPHENG_STDDEF_H
typedef __SIZE_TYPE__ size_t;
#define NULL ((void *)0)
#endif
