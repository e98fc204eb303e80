/* Pages of memory, for programs that ask for them: of a bare board's heap, protected by its memory protection unit. Where a length can be over 2^32 programs ask for more
 * than is there. */
#ifndef SYS_MMAN_H
#define SYS_MMAN_H

#include <stddef.h>

enum { PROT_NONE, PROT_READ, PROT_WRITE, MAP_PRIVATE = 0, MAP_ANONYMOUS = 0, MAP_NORESERVE = 0 };
#define MAP_FAILED ((void *)-1)

void *mmap(void *at, size_t length, int access, int how, int fd, int from);
int mprotect(void *at, size_t length, int access);

static inline int munmap(void *at, size_t length) {
    (void)at, (void)length;
    return 0;
}

#endif
