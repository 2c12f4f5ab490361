/* What the programs here use of C's, without a C library. Copies of fixed size are compiled in place, as a hosted
   compiler does it: with -ffreestanding the name alone says nothing to it. */
#ifndef STRING_H
#define STRING_H
#include <stddef.h>

#define memset __builtin_memset
#define memcpy __builtin_memcpy
int memcmp(const void *one, const void *other, size_t count);
#endif
