/* The stack that each entry of the library is seen to use: every way of ways.h on a painted stack of its own. A line is an entry and its bytes. */
#include "ways.h"

#include <stdio.h>
#include <ucontext.h>

/* The bytes are counted from the entry's return address on, which is the first. Arguments on the stack are the caller's. */
enum { STACK = 2048, RETURN_ADDRESS = 8 };

typedef void (*any_call)(void);

/* What the calls are made with; each is made anew for every call. */
static uint8_t own_image[sizeof image], own_memory[sizeof memory], own_room[sizeof room];
static uint8_t request[QS_REQUEST_BUFFER], reply[QS_REPLY_ROOM], buffer[QS_REQUEST_BUFFER];
static uint64_t image_length, memory_given, room_length, request_length, reply_length;
static uint32_t tick;
static uint8_t number; /* any byte, another one in each way */

/* The entry, or nothing() in its place; volatile, so that the code around both is the same. */
static volatile any_call entry;
#define ENTRY(call) ((__typeof__(&call))entry)

static void fresh(void) { ENTRY(qs_fresh)(total, BITS, PLATE_ADDRESS, TICKS, pause_bits, label, sizeof label, own_image, image_length); }
static void restart(void) {
    ENTRY(qs_restart)(total, BITS, PLATE_ADDRESS, TICKS, pause_bits, label, sizeof label, image + QS_IMAGE_LASTING, QS_LASTING_LENGTH, own_image, image_length);
}
static void character(void) { ENTRY(qs_character)(own_image, image_length, tick, number, number & 1, own_memory, memory_given, own_room, room_length); }
static void poll(void) { ENTRY(qs_poll)(own_image, image_length, tick, own_memory, memory_given, own_room, room_length); }
static void measured(void) { ENTRY(qs_measured)(own_image, image_length, tick); }
static void fault(void) { ENTRY(qs_fault)(own_image, image_length, number); }
static void power_on(void) { ENTRY(qs_power_on)(own_image, image_length); }
static void write_request(void) {
    ENTRY(qs_request)(ADDRESS, request[1], request + 2, request_length < 3 ? 0 : request_length - 3, buffer, sizeof buffer);
}
static void judge(void) { ENTRY(qs_judge)(request, request_length, reply, reply_length); }
static void data_part(void) { ENTRY(qs_data_part)(request, request_length, reply, reply_length); }
static void length_of_reply(void) { ENTRY(qs_reply_length)(request, request_length, reply, reply_length); }

/* Stands in the place of every entry: what the call itself takes. This machine's caller clears its arguments away, so that any may be given. */
static void nothing(void) {}

static struct {
    const char *name;
    any_call entry, call;
    size_t empty, deepest;
} ENTRIES[] = {
#define ROW(name, call) {#name, (any_call)name, call, 0, 0}
    ROW(qs_fresh, fresh),       ROW(qs_restart, restart),       ROW(qs_character, character), ROW(qs_poll, poll),
    ROW(qs_measured, measured), ROW(qs_fault, fault),           ROW(qs_power_on, power_on),   ROW(qs_request, write_request),
    ROW(qs_judge, judge),       ROW(qs_data_part, data_part),   ROW(qs_reply_length, length_of_reply),
};
enum { NUMBER = sizeof ENTRIES / sizeof *ENTRIES };

static uint8_t stack[STACK];
static ucontext_t here, there;
static volatile any_call call;

/* The first thing on the painted stack. The space keeps all that leads back from here above what the call uses. */
static void on_painted_stack(void) {
    volatile uint8_t space[256];
    space[0] = 0;
    call();
    space[1] = space[0];
}

/* The bytes of the painted stack that one call changes. */
static size_t changed(any_call what, any_call how, uint8_t paint) {
    size_t low = 0;
    memset(stack, paint, sizeof stack);
    entry = what;
    call = how;
    getcontext(&there);
    there.uc_stack.ss_sp = stack;
    there.uc_stack.ss_size = sizeof stack;
    there.uc_link = &here;
    makecontext(&there, on_painted_stack, 0);
    swapcontext(&here, &there);
    while (low < sizeof stack && stack[low] == paint)
        low++;
    return sizeof stack - low;
}

static void inputs_anew(void) {
    memcpy(own_image, image, sizeof image);
    memcpy(own_memory, memory, sizeof memory);
}

/* Each entry on the inputs as they stand, with two paints, since a byte may be written that looks like one. */
static void measure_entries(void) {
    static const uint8_t paints[] = {0xA5, 0x5A};
    for (size_t i = 0; i < NUMBER; i++) {
        for (size_t p = 0; p < sizeof paints; p++) {
            inputs_anew();
            size_t used = changed(ENTRIES[i].entry, ENTRIES[i].call, paints[p]) + RETURN_ADDRESS - ENTRIES[i].empty;
            if (used > ENTRIES[i].deepest)
                ENTRIES[i].deepest = used;
        }
    }
}

/* The request and the board's reply to it; all lengths good, the frame's pause over. */
static void good_inputs(void) {
    inputs_anew();
    request_length = image[QS_IMAGE_KEPT_NUMBER];
    memcpy(request, image + QS_IMAGE_KEPT, request_length);
    image_length = sizeof image, memory_given = memory_length, room_length = sizeof room;
    tick = closing_tick;
    reply_length = QS_REPLY(qs_poll(own_image, image_length, tick, own_memory, memory_given, reply, sizeof reply));
}

/* One way: as it is, then with each thing wrong that is refused, or too early. */
static void measure_way(const char *row) {
    (void)row;
    number = (uint8_t)(number + 1 + image[QS_IMAGE_KEPT + 1]);
    for (int wrong = 0; wrong <= 6; wrong++) {
        good_inputs();
        image_length -= wrong == 1;
        memory_given -= wrong == 2;
        room_length -= wrong == 3;
        tick -= wrong == 4;
        reply_length -= wrong == 5 && reply_length > 0;
        request_length -= wrong == 6 && request_length > 3;
        measure_entries();
    }
}

int main(void) {
    for (size_t i = 0; i < NUMBER; i++)
        ENTRIES[i].empty = changed((any_call)nothing, ENTRIES[i].call, 0xA5);
    each_way(measure_way);
    for (size_t i = 0; i < NUMBER; i++)
        printf("%s %zu\n", ENTRIES[i].name, ENTRIES[i].deepest);
    return 0;
}
