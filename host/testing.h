/* What the test programs share: counted checks, dice, plates. A program defines PROGRAM, its name, before it includes this. */
#ifndef TESTING_H
#define TESTING_H

#include "quicksetter.h"

#include <stdbool.h>
#include <stdio.h>
#include <string.h>

#define COUNT(table) (sizeof(table) / sizeof *(table))

/* ---- checking ------------------------------------------------------------------------------------------------------------------------------------------- */

static unsigned long checks, failures;

static inline void check(bool good, const char *what, unsigned long number) {
    checks++;
    if (good)
        return;
    failures++;
    printf(PROGRAM ": FAILED: %s (%lu)\n", what, number);
}

/* The last line, and what main returns. */
static inline int ended(void) {
    printf(PROGRAM ": %lu checks, %lu failed\n", checks, failures);
    return failures == 0 ? 0 : 1;
}

/* ---- how long the host may sleep ------------------------------------------------------------------------------------------------------------------------ */

static inline uint32_t little_32(const uint8_t *at) {
    return (uint32_t)at[0] | (uint32_t)at[1] << 8 | (uint32_t)at[2] << 16 | (uint32_t)at[3] << 24;
}

/* What is left of the open frame's pause at a tick: 02, Req 03, by the image that a call left. */
static inline uint32_t sleep_by(const uint8_t *image, uint32_t tick) {
    uint32_t pause = (uint32_t)image[QS_IMAGE_PAUSE] * image[QS_IMAGE_TICKS];
    uint32_t since = tick - little_32(image + QS_IMAGE_LAST);
    if (image[QS_IMAGE_OPEN] == 0)
        return QS_NO_FRAME_OPEN;
    return since < pause ? pause - since : 0;
}

/* The reply's length, or the refusal, of a character or a poll at a tick; the sleep beside it is checked. */
static inline uint64_t reply_of(uint64_t result, const uint8_t *image, uint32_t tick) {
    uint32_t expected = QS_IS_REFUSED(result) ? QS_SLEEP_REFUSED : sleep_by(image, tick);
    check(QS_SLEEP(result) == expected && expected != 0, "how long the host may sleep", tick);
    return QS_REPLY(result);
}

/* ---- dice: the same numbers in each run (splitmix64) ---------------------------------------------------------------------------------------------------- */

static inline uint64_t dice(void) {
    static uint64_t seed = 1;
    seed += 0x9E3779B97F4A7C15;
    uint64_t mixed = seed;
    mixed = (mixed ^ mixed >> 30) * 0xBF58476D1CE4E5B9;
    mixed = (mixed ^ mixed >> 27) * 0x94D049BB133111EB;
    return mixed ^ mixed >> 31;
}

/* 0 to end - 1. */
static inline uint32_t below(uint32_t end) {
    return (uint32_t)(dice() % end);
}

/* True once in so many throws. */
static inline bool once_in(uint32_t times) {
    return below(times) == 0;
}

/* ---- plates and bytes ----------------------------------------------------------------------------------------------------------------------------------- */

struct plate {
    uint32_t total, bits, address, ticks, pause;
};

/* 01, "Plate", by a test of its own. */
static inline bool possible(struct plate p) {
    bool ticks = p.ticks == 1 || p.ticks == 2 || p.ticks == 4 || p.ticks == 8 || p.ticks == 16 || p.ticks == 32 || p.ticks == 64;
    return p.total >= 1 && p.total <= 112 && p.bits >= 1 && p.bits <= 32 && p.address <= 31 && ticks && (p.pause == 22 || p.pause == 55);
}

/* The place among the lasting bytes of what stands at a place of the image. */
#define IN_LASTING(place) ((place)-QS_IMAGE_LASTING)

/* What lasts of a board that is fresh: 01, "Fresh state", and the plate's address in force. */
static inline void fresh_lasting(struct plate p, uint8_t *lasting) {
    memset(lasting, 0, QS_LASTING_LENGTH);
    memset(lasting + IN_LASTING(QS_IMAGE_CODES), 0x55, QS_IMAGE_CODES_SIZE);
    lasting[IN_LASTING(QS_IMAGE_ADDRESS)] = (uint8_t)p.address;
}

/* The image of a board with this plate and label, of whose state only the lasting bytes are not 0. */
static inline void image_of(struct plate p, const uint8_t *label, const uint8_t *lasting, uint8_t *image) {
    memset(image, 0, QS_IMAGE_LENGTH);
    image[QS_IMAGE_LAYOUT] = QS_LAYOUT_NUMBER;
    image[QS_IMAGE_TOTAL] = (uint8_t)p.total;
    image[QS_IMAGE_BITS] = (uint8_t)p.bits;
    image[QS_IMAGE_PLATE_ADDRESS] = (uint8_t)p.address;
    image[QS_IMAGE_TICKS] = (uint8_t)p.ticks;
    image[QS_IMAGE_PAUSE] = (uint8_t)p.pause;
    memcpy(image + QS_IMAGE_LABEL, label, QS_LABEL_LENGTH);
    memcpy(image + QS_IMAGE_LASTING, lasting, QS_LASTING_LENGTH);
}

static inline uint8_t xor_of(const uint8_t *bytes, size_t n) {
    uint8_t sum = 0;
    for (size_t i = 0; i < n; i++)
        sum ^= bytes[i];
    return sum;
}

#endif
