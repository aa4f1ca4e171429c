/* For the kit's clang, which comes without headers: what cards.c needs. */
#ifndef BARE_STDIO_H
#define BARE_STDIO_H
#ifdef __cplusplus
extern "C"
#endif
int printf(const char *format, ...);
#endif
