/* A good tape on standard input, record by record. */
#ifndef RECORDS_H
#define RECORDS_H

#include <stdbool.h>
#include <stdint.h>
#include <stdio.h>
#include <stdlib.h>

enum { PLATE_RECORD = 1, CHARACTER_RECORD, POLL_RECORD, MEASURED_RECORD, FAULT_RECORD, POWER_ON_RECORD };
enum { LARGEST_RECORD = 8 };

struct tape {
    const uint8_t *bytes;
    size_t length, place;
};

struct record {
    unsigned kind;
    const uint8_t *body;
};

static inline uint32_t number_at(const uint8_t *at) {
    return (uint32_t)at[0] | (uint32_t)at[1] << 8 | (uint32_t)at[2] << 16 | (uint32_t)at[3] << 24;
}

/* All of standard input; its bytes are NULL where there is no memory for it. */
static inline struct tape whole_input(void) {
    size_t room_for = 1 << 20, length = 0;
    uint8_t *bytes = malloc(room_for);
    while (bytes != NULL) {
        size_t more = fread(bytes + length, 1, room_for - length, stdin);
        if (more == 0)
            break;
        length += more;
        if (length == room_for) {
            room_for *= 2;
            bytes = realloc(bytes, room_for);
        }
    }
    return (struct tape){bytes, length, 0};
}

static inline bool has_more(const struct tape *tape) {
    return tape->place < tape->length;
}

/* The next record; its body is NULL where it is cut short or too long. */
static inline struct record next_record(struct tape *tape) {
    const uint8_t *at = tape->bytes + tape->place;
    size_t left = tape->length - tape->place;
    size_t follows = left < 2 ? 0 : at[0] + 256u * at[1];
    if (follows < 2 || follows > LARGEST_RECORD || follows + 2 > left)
        return (struct record){0, NULL};
    tape->place += 2 + follows;
    return (struct record){at[2], at + 4};
}

#endif
