/* The length of a page, for the tests' programs. */
#ifndef UNISTD_H
#define UNISTD_H

enum { _SC_PAGESIZE, PAGE_LENGTH = 4096 };

static inline long sysconf(int what) {
    (void)what;
    return PAGE_LENGTH;
}

#endif
