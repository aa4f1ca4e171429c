/* For the kit's clang, which comes without headers: what conchibaru.h and cards.c need. The types are the compiler's own. */
#ifndef BARE_STDINT_H
#define BARE_STDINT_H
typedef __UINT8_TYPE__ uint8_t;
typedef __UINT16_TYPE__ uint16_t;
typedef __UINT32_TYPE__ uint32_t;
typedef __UINT64_TYPE__ uint64_t;
#define UINT64_MAX __UINT64_MAX__
#endif
