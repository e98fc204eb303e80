/* Memory and the end, for the tests' programs. */
#ifndef STDLIB_H
#define STDLIB_H

#include <stddef.h>

void *malloc(size_t size);
void *realloc(void *before, size_t size);
_Noreturn void exit(int status);
_Noreturn void abort(void);

#endif
