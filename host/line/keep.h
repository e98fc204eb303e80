/* The encoder's file: a board's memory and the bytes that must last, written whole or not at all. */
#ifndef KEEP_H
#define KEEP_H

#include "quicksetter.h"
#include "tool.h"

enum { LARGEST_TOTAL = 112, LARGEST_BITS = 32 };

/* What a file holds: numbers of the plate on which the rest depends, the bytes that must last, memory. */
struct kept {
    uint32_t total, bits;
    uint8_t lasting[QS_LASTING_LENGTH];
    uint8_t memory[QS_MEMORY_LENGTH(LARGEST_TOTAL)];
};

enum found { FOUND_NONE, FOUND_BOARD, FOUND_UNUSABLE };

/* Reads the file and locks it against another encoder until this one ends. FOUND_NONE if there is no such file; of one that is damaged, foreign or in use it
 * complains, and it is left alone. */
enum found keep_open(const char *name, struct kept *kept);

/* Whether a name leads to the file, or to the new one beside it. Only after keep_open. */
bool keep_is(const char *name);

/* Writes the file: a new one beside it, to the disk, then in its place, then the folder to the disk. Complains and returns false if it cannot be done. The file is
 * then what it was, or, where only the folder could not be written, whole and new. Only after keep_open. */
bool keep_write(const struct kept *kept);

#endif
