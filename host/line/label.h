/* Labels for the programmer: a text that a person writes (docs/TOOLS.md), or a label tape (host/programmer.h), read from a file. */
#ifndef LABEL_H
#define LABEL_H

#include "programmer.h"
#include "tool.h"

enum { NUMBER_OF_CODES = 4, MOST_FIELDS = 256, BLOCK = 16, LARGEST_FIELD = 8 * BLOCK, LONGEST_TAPE = 8 + MOST_FIELDS * (5 + LARGEST_FIELD) };

struct tape {
    uint8_t bytes[LONGEST_TAPE];
    uint64_t length;
    unsigned fields, blocks;
};

/* Reads a label: the tape in the file, or the tape that its text says. Complains about the first bad line or record, and returns false. */
bool label_in(const char *name, struct tape *tape);

/* The four codes of a good tape, Code0 first. */
const uint8_t *tape_codes(const struct tape *tape);

/* A new tape, and a field more on it. Returns where its bytes stand, all 00h, as many as its status says; NULL if 256 fields are there. */
void tape_start(struct tape *tape, const uint8_t *codes);
uint8_t *tape_add_field(struct tape *tape, uint8_t status);

#endif
