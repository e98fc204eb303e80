/* What encoder, bench and program share of a command line: exit statuses, one-line complaints, numbers and options as people write them. */
#ifndef TOOL_H
#define TOOL_H

#include <stdbool.h>
#include <stdint.h>

/* How a program ends; each program's --help lists those that it has. */
enum status {
    ENDED_DONE = 0,
    ENDED_ERROR_CODE = 1,  /* the board answered with an error code */
    ENDED_COMMAND_LINE = 2, /* an argument that is none */
    ENDED_REFUSED = 3,     /* the reply does not fit the request, or what was read back is not what was stored */
    ENDED_SILENCE = 4,
    ENDED_PORT = 5, /* a port that cannot be used, or that went away */
    ENDED_FILE = 6, /* a file that cannot be used */
};

#define PLACES(table) (sizeof(table) / sizeof *(table))

/* The program's own name, which each line on standard error begins with. */
extern const char *const tool_name;

/* A program that must not wait, since a board hangs on it, drops what nobody takes from standard output or error. */
extern bool drops_what_nobody_reads;

/* What stands on the terminal's last line is not ended: a complaint ends it first. */
extern bool has_open_line;

/* Whether a descriptor takes a line now. */
bool takes_a_line(int fd);

/* One line on standard error. Returns false, so that who finds a fault can complain and leave in one statement. */
#if defined(__GNUC__)
__attribute__((format(printf, 1, 2)))
#endif
bool complain(const char *form, ...);

/* ---- as people write them ------------------------------------------------------------------------------------------------------------------------------- */

/* The value of a hex digit; -1 if it is none. */
int hex_value(char digit);

/* A decimal number, or 0x and hex digits, from least to most. Complains with `what` if it is none. */
bool number_in(const char *text, const char *what, uint32_t least, uint32_t most, uint32_t *number);

/* One byte in hex: 55, 0x55 or 55h. */
bool hex_byte_in(const char *text, const char *what, uint8_t *byte);

/* Hex pairs with or without blanks between them, put behind the `*length` bytes that are there already; complains where they exceed `room`. */
bool hex_bytes_in(const char *text, const char *what, uint8_t *bytes, uint64_t room, uint64_t *length);

void print_hex(const uint8_t *bytes, uint64_t length);

/* ---- files ---------------------------------------------------------------------------------------------------------------------------------------------- */

/* All of it, and then the folder in which a file's name stands, on the disk. False with errno if not. */
bool write_whole(int fd, const uint8_t *bytes, uint64_t length);
bool folder_to_disk(const char *file);

/* ---- options -------------------------------------------------------------------------------------------------------------------------------------------- */

/* An option, and what it says: exactly one of flag, text, number and take is there. All but a flag have a value, the next word. */
struct option {
    const char *name;
    bool *flag;
    const char **text;
    uint32_t *number;
    uint32_t least, most;            /* of the number */
    bool (*take)(const char *value); /* complains and returns false if the value is bad */
};

enum { MOST_WORDS = 160 };

/* The words of a command line that are no options. */
struct words {
    const char *word[MOST_WORDS];
    unsigned number;
};

/* ---- a program ------------------------------------------------------------------------------------------------------------------------------------------ */

struct tool {
    const char *help;
    const struct option *options;
    unsigned number_of_options;
    bool (*is_use)(const struct words *words); /* whether these words can be meant */
    const char *wants;                         /* what is told if not */
    enum status (*run)(const struct words *words);
};

/* What main does: the command line taken apart, where an option may stand anywhere but only once; help, or the run; what was printed written out. */
enum status tool_main(int argc, char **argv, const struct tool *tool);

#endif
