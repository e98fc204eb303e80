/* The functions on bytes and texts that the tests' programs use. */
#ifndef STRING_H
#define STRING_H

#include <stddef.h>

void *memcpy(void *to, const void *from, size_t number);
void *memmove(void *to, const void *from, size_t number);
void *memset(void *to, int value, size_t number);
void *memchr(const void *bytes, int value, size_t number);
int memcmp(const void *first, const void *second, size_t number);
int strcmp(const char *first, const char *second);
size_t strlen(const char *text);

#endif
