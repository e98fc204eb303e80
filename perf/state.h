/* The board that a measured call finds: the host's bytes, the plate, the waiting codes and the rest of the state. */
#ifndef STATE_H
#define STATE_H

#include "../host/quicksetter.h"

#include <string.h>

/* ADDRESS is in force; it is not the plate's, and not 0, so that a board that writes the counter too wide leaves another image. */
enum { TOTAL = 112, SMALL_TOTAL = 8, BITS = 24, PLATE_ADDRESS = 7, ADDRESS = 3, TICKS = 4, PAUSE = 55, SHORT_PAUSE = 22 };

static uint8_t image[QS_IMAGE_LENGTH], memory[QS_MEMORY_LENGTH(TOTAL)], room[QS_REPLY_ROOM];

static uint8_t label[QS_LABEL_LENGTH];
static uint8_t total;         /* blocks */
static uint32_t pause_bits;   /* bit times of the pause */
static uint64_t memory_length;
static uint32_t closing_tick; /* closes a frame whose last character came at tick 0 */
static unsigned codes_wait;   /* 0 to 4 */

/* A counter about to overflow; the same where its fault code waits already; a locked position. */
static const struct state {
    uint8_t counter, first_code, locked;
} STATES[] = {{0xFF, 0x1E, 0}, {0xFF, QS_ERROR_COUNTER_OVERFLOW, 0}, {0x00, 0x1E, 1}};
enum { STATE_NUMBER = sizeof STATES / sizeof *STATES };
static const struct state *state = STATES;

/* Bytes that tell their place. */
static void fill(uint8_t *bytes, size_t number) {
    for (size_t i = 0; i < number; i++)
        bytes[i] = (uint8_t)(7 * i + 1);
}

/* Another plate, with no fields. */
static void set_plate(uint8_t blocks, uint32_t bit_times) {
    total = blocks;
    pause_bits = bit_times;
    memory_length = QS_MEMORY_LENGTH(blocks);
    closing_tick = bit_times * TICKS;
    fill(label, sizeof label);
    fill(room, sizeof room);
    fill(memory, sizeof memory);
    memset(memory + QS_BLOCK * total, 0, total);
}

/* The image of that plate and state, with no frame open. */
static void set_image(void) {
    const uint8_t codes[4] = {state->first_code, 0x1F, 0x20, 0x21};
    qs_fresh(total, BITS, PLATE_ADDRESS, TICKS, pause_bits, label, sizeof label, image, sizeof image);
    image[QS_IMAGE_ADDRESS] = ADDRESS;
    memset(image + QS_IMAGE_COUNTER, state->counter, QS_IMAGE_COUNTER_SIZE);
    memcpy(image + QS_IMAGE_WAITING, codes, codes_wait);
    image[QS_IMAGE_LOCKED] = state->locked;
}

#endif
