/* Commands, codes, statuses and verdicts in words, for bench and program; the names are those of tools/commands.py. */
#ifndef WORDS_H
#define WORDS_H

#include "quicksetter.h"
#include "tool.h"

/* The parts of a request's data, a letter each. */
enum part {
    PART_FIELD = 'F',
    PART_OFFSET = 'O',
    PART_COUNT = 'N',
    PART_CODE = 'C', /* by --code */
    PART_STATUS = 'S',
    PART_POSITION = 'P',
    PART_CODE_NUMBER = 'K',
    PART_OLD_CODE = 'o',
    PART_NEW_CODE = 'n',
    PART_ADDRESS = 'A',
    PART_DATA = 'D', /* all that is left */
};

struct command {
    uint8_t byte;
    const char *name, *also; /* as session texts have it; a second name, or NULL */
    const char *parts;       /* of the request */
    uint32_t due;            /* milliseconds from the pause's end to the reply (000, table 10) */
};

extern const struct command COMMANDS[];
extern const unsigned NUMBER_OF_COMMANDS;

/* NULL if there is none. */
const struct command *command_named(const char *name);
const struct command *command_of(uint8_t byte);

/* `0Fh wrong access code (not the code that is wanted)`: what a board answers a command with. */
void print_error(uint8_t code, uint8_t command);

/* `06h internal checksum error`. */
void print_code(uint8_t code);

/* Why the bench refuses a reply, B0 to B6. */
const char *refusal_words(unsigned number);

/* `status C3h (exists, write-enabled, no code wanted, code number 0, 4 blocks)`. */
void print_status(uint8_t status);

unsigned blocks_of(uint8_t status);

/* `1 block`, `2 blocks`. */
void print_counted(unsigned number, const char *what);

/* A good reply's data in words, without a line's end; data of several lines, each of 16 bytes, begins a new one. */
void print_data(uint8_t command, const uint8_t *data, uint64_t length);

/* Bytes of a field, 16 a line, each with its offset from `first` on, in hex and as letters. */
void print_bytes(const uint8_t *bytes, uint64_t length, unsigned first);

#endif
