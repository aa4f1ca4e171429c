/* For the kit's clang, which comes without headers: what conchibaru.h and cards.c need. The types are the compiler's own. */
#ifndef BARE_STDDEF_H
#define BARE_STDDEF_H
typedef __SIZE_TYPE__ size_t;
#ifdef __cplusplus
#define NULL __null
#else
#define NULL ((void *)0)
#endif
#endif
