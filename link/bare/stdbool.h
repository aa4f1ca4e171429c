/* For the kit's clang, which comes without headers: what conchibaru.h needs, in C. */
#ifndef BARE_STDBOOL_H
#define BARE_STDBOOL_H
#define bool _Bool
#define true 1
#define false 0
#endif
