/* One call on both boards, the library's and the hand-written C's, from the same bytes: both must return and leave the same. A line is the row and the way. */
#ifndef BOTH_H
#define BOTH_H

#include "hand.h"
#include "state.h"

#include <inttypes.h>
#include <stdio.h>
#include <stdlib.h>

typedef uint64_t (*board_call)(void);

/* Defines the call of each board with these arguments, for ON_BOTH. */
#define CALLS(name, ...)                                                                                                                                  \
    static uint64_t library_##name(void) { return qs_##name(__VA_ARGS__); }                                                                               \
    static uint64_t hand_written_##name(void) { return hand_##name(__VA_ARGS__); }
#define ON_BOTH(row, name) on_both(row, TAKEN, library_##name, hand_written_##name)

enum outcome { TAKEN, REFUSED };
enum { FRONT = 8 }; /* bytes of a frame that are printed */

/* The host's bytes, before the call and as each board leaves them. */
static struct bytes {
    uint8_t image[sizeof image], memory[sizeof memory], room[sizeof room];
} before, by_library, by_hand;

static void keep(struct bytes *bytes) {
    memcpy(bytes->image, image, sizeof image);
    memcpy(bytes->memory, memory, sizeof memory);
    memcpy(bytes->room, room, sizeof room);
}

static void bring_back(const struct bytes *bytes) {
    memcpy(image, bytes->image, sizeof image);
    memcpy(memory, bytes->memory, sizeof memory);
    memcpy(room, bytes->room, sizeof room);
}

static void print_bytes(FILE *file, const uint8_t *bytes, uint64_t number) {
    for (uint64_t i = 0; i < number; i++)
        fprintf(file, " %02X", bytes[i]);
}

/* The row and what the call finds, enough to make that call again. */
static void print_way(FILE *file, const char *row) {
    unsigned fields = 0, kept = image[QS_IMAGE_KEPT_NUMBER];
    for (unsigned i = 0; i < total; i++)
        fields += memory[QS_BLOCK * total + i] != 0;
    fprintf(file, "%s\tblocks %u, pause %u, fields %u, codes waiting %u", row, total, pause_bits, fields, codes_wait);
    if (image[QS_IMAGE_OPEN] == 1) {
        fprintf(file, ", frame of %u:", kept);
        print_bytes(file, image + QS_IMAGE_KEPT, kept < FRONT ? kept : FRONT);
    }
    fputc('\n', file);
}

static void print_outcome(const char *board, uint64_t result, const uint8_t *reply) {
    fprintf(stderr, "\n%s returns %" PRIu64 ":", board, result);
    print_bytes(stderr, reply, QS_IS_REFUSED(result) ? 0 : QS_REPLY(result));
}

static void print_agreement(const char *what, const uint8_t *library, const uint8_t *hand, size_t number) {
    fprintf(stderr, "%s %s; ", what, memcmp(library, hand, number) == 0 ? "the same" : "another");
}

static void fail(const char *why, const char *row, uint64_t library, uint64_t hand) {
    fprintf(stderr, "%s: ", why);
    print_way(stderr, row);
    print_agreement("image", by_library.image, by_hand.image, sizeof image);
    print_agreement("memory", by_library.memory, by_hand.memory, sizeof memory);
    print_agreement("room", by_library.room, by_hand.room, sizeof room);
    print_outcome("the library", library, by_library.room);
    print_outcome("the hand-written C", hand, by_hand.room);
    fputc('\n', stderr);
    exit(1);
}

/* Both boards called; the line comes only if they agree and the call is what it should be. */
static void on_both(const char *row, enum outcome expected, board_call library, board_call hand) {
    keep(&before);
    uint64_t ours = library();
    keep(&by_library);
    bring_back(&before);
    uint64_t theirs = hand();
    keep(&by_hand);
    bring_back(&before);
    if (ours != theirs || memcmp(&by_library, &by_hand, sizeof before) != 0)
        fail("the library and the hand-written C differ", row, ours, theirs);
    if (QS_IS_REFUSED(ours) != (expected == REFUSED))
        fail("not what was to be measured", row, ours, theirs);
    print_way(stdout, row);
}

#endif
