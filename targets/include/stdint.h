/* What the library's sources take from <stdint.h>, for the toolchain's clang, which has no headers of its own. */
#ifndef WANLOPHENG_STDINT_H
#define WANLOPHENG_STDINT_H
typedef __UINT8_TYPE__ uint8_t;
typedef __UINT32_TYPE__ uint32_t;
typedef __UINT64_TYPE__ uint64_t;
typedef __UINTPTR_TYPE__ uintptr_t;
#endif
