/* What must last over a power cut, in two pages of flash: one is whole whatever happens, and the newer whole one holds. */
#ifndef KEEP_H
#define KEEP_H

#include "quicksetter.h"

#include <stdbool.h>

/* What a page holds: numbers of the plate on which the rest depends, the bytes that must last, memory of that many blocks. */
struct kept {
    uint8_t total, bits;
    uint8_t *lasting; /* QS_LASTING_LENGTH bytes */
    uint8_t *memory;  /* QS_MEMORY_LENGTH(total) bytes */
};

enum found {
    FOUND_NONE,   /* no page was ever finished: the board is new */
    FOUND_WHOLE,  /* all that was ever written is there */
    FOUND_OLDER,  /* a page was finished and is damaged now: what the other one holds may be older */
    FOUND_DAMAGE, /* so, and there is no other */
};

/* Reads lasting bytes and memory of the newer whole page that has this total and these bits. Where there is none, both are as they were. */
enum found keep_read(const struct kept *kept);

/* Writes lasting bytes and memory to the page that does not hold now, unless the one that holds has them already: then the flash is left alone. True once they
 * hold; false if the flash did not take them, and then what held holds. Only after keep_read. */
bool keep_write(const struct kept *kept);

#endif
