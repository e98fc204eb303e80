/* A good tape on standard input, played by three hosts: one polls where the tape does, one on each bit time, and one sleeps as long as the board says (02, Req
 * 03). All hand in the tape's characters, positions and faults, and must get the same replies. Prints a line for each: how often it woke, for a character or to
 * poll, and how many of those polls closed a frame. Ends in 1 if a reply differs or a call is refused. */
#include "../host/quicksetter.h"
#include "records.h"

#include <inttypes.h>
#include <string.h>

static const uint8_t label[QS_LABEL_LENGTH];

enum way { AS_THE_TAPE, EACH_BIT, BY_THE_ANSWER, WAYS };
static const char *const NAMES[WAYS] = {"polls where the tape does", "polls on each bit time", "sleeps by the answer"};

struct host {
    uint8_t image[QS_IMAGE_LENGTH], memory[QS_MEMORY_LENGTH(112)], room[QS_REPLY_ROOM];
    uint64_t memory_length;
    uint32_t bit;         /* ticks of a bit time */
    uint32_t now;         /* the tick of the last character or poll */
    uint32_t sleep;       /* from there on */
    uint64_t wake_ups, polls, closing, replies;
    uint32_t sum;         /* of the replies' bytes, one after the other (FNV-1a) */
    bool refused;
};

static void told(struct host *h, uint32_t tick, uint64_t result) {
    h->wake_ups++;
    h->now = tick;
    h->sleep = QS_SLEEP(result);
    h->refused |= QS_IS_REFUSED(result);
    if (QS_IS_REFUSED(result) || QS_REPLY(result) == 0)
        return;
    h->replies++;
    for (uint64_t i = 0; i < QS_REPLY(result); i++)
        h->sum = (h->sum ^ h->room[i]) * 16777619u;
}

static void poll_at(struct host *h, uint32_t tick) {
    uint8_t open = h->image[QS_IMAGE_OPEN];
    told(h, tick, qs_poll(h->image, sizeof h->image, tick, h->memory, h->memory_length, h->room, sizeof h->room));
    h->polls++;
    h->closing += open != 0 && h->image[QS_IMAGE_OPEN] == 0;
}

/* The time up to a tick passes. */
static void pass(struct host *h, enum way way, uint32_t tick) {
    if (way == EACH_BIT) {
        while (tick - h->now > h->bit)
            poll_at(h, h->now + h->bit);
    }
    if (way == BY_THE_ANSWER && h->sleep != QS_NO_FRAME_OPEN && h->sleep <= tick - h->now)
        poll_at(h, h->now + h->sleep);
}

static void start(struct host *h, const uint8_t *body) {
    h->memory_length = QS_MEMORY_LENGTH(body[0]);
    h->bit = body[3];
    h->sleep = QS_NO_FRAME_OPEN;
    h->sum = 2166136261u;
    h->refused |= qs_fresh(body[0], body[1], body[2], body[3], body[4], label, sizeof label, h->image, sizeof h->image) != 0;
}

static void play(struct host *h, enum way way, struct record r) {
    switch (r.kind) {
    case PLATE_RECORD: start(h, r.body); return;
    case CHARACTER_RECORD:
        pass(h, way, number_at(r.body));
        told(h, number_at(r.body),
             qs_character(h->image, sizeof h->image, number_at(r.body), r.body[4], r.body[5], h->memory, h->memory_length, h->room, sizeof h->room));
        return;
    case POLL_RECORD:
        if (way == AS_THE_TAPE)
            poll_at(h, number_at(r.body));
        else
            pass(h, way, number_at(r.body));
        return;
    case MEASURED_RECORD: h->refused |= qs_measured(h->image, sizeof h->image, number_at(r.body)) != 0; return;
    case FAULT_RECORD: h->refused |= qs_fault(h->image, sizeof h->image, r.body[0]) != 0; return;
    case POWER_ON_RECORD: h->refused |= qs_power_on(h->image, sizeof h->image) != 0; return;
    default: h->refused = true;
    }
}

int main(void) {
    static struct host hosts[WAYS];
    struct tape tape = whole_input();
    if (tape.bytes == NULL)
        return 1;
    while (has_more(&tape)) {
        struct record record = next_record(&tape);
        if (record.body == NULL)
            return 1;
        for (enum way way = AS_THE_TAPE; way < WAYS; way++)
            play(&hosts[way], way, record);
    }
    for (enum way way = AS_THE_TAPE; way < WAYS; way++) {
        const struct host *h = &hosts[way];
        if (h->refused || h->replies == 0 || h->replies != hosts[0].replies || h->sum != hosts[0].sum)
            return 1;
        printf("%s\t%" PRIu64 "\t%" PRIu64 "\t%" PRIu64 "\t%" PRIu64 "\n", NAMES[way], h->wake_ups, h->polls, h->closing, h->replies);
    }
    return 0;
}
