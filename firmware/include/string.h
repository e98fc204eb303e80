/* The functions on bytes that board/memory.c has. */
#ifndef STRING_H
#define STRING_H

#include <stddef.h>

void *memcpy(void *to, const void *from, size_t number);
void *memmove(void *to, const void *from, size_t number);
void *memset(void *to, int value, size_t number);

#endif
