/* A good tape on standard input, played on the board over memory that this program only reads. A line on standard error, where valgrind's trace goes too, has the places of
 * memory and of `mark`, which is written before each call: by them writes.py finds the board's writes in what follows. Standard output has the replies, the cells
 * that their requests name, and the cells that held something else after a call than before it. Ends in 1 if a call is refused. */
#include "board.h"
#include "records.h"

#include <inttypes.h>
#include <string.h>

static const uint8_t label[QS_LABEL_LENGTH];
static uint8_t image[QS_IMAGE_LENGTH], memory[QS_MEMORY_LENGTH(112)], room[QS_REPLY_ROOM];
static uint8_t before[sizeof memory];
static uint64_t memory_length;
static uint8_t total;
static volatile uint32_t mark;
static uint64_t replies, named, changed;

static uint64_t start(const uint8_t *body) {
    total = body[0];
    memory_length = QS_MEMORY_LENGTH(body[0]);
    return CALL(fresh)(body[0], body[1], body[2], body[3], body[4], label, sizeof label, image, sizeof image);
}

static unsigned blocks_of(uint8_t status) {
    return (status & QS_STATUS_EXISTS) != 0 ? (status & QS_STATUS_BLOCKS) + 1u : 0;
}

/* The cells that an accepted request sets: a store's bytes, or the blocks granted or given back and the status. */
static uint64_t cells_named(void) {
    size_t status = QS_BLOCK * (size_t)total + room[2];
    unsigned old = blocks_of(before[status]), new = blocks_of(memory[status]);
    switch (room[1] & ~QS_WARNING_BIT) {
    case QS_STORE_DATA: return room[4];
    case QS_CREATE_FIELD: return QS_BLOCK * (old < new ? new - old : old - new) + 1;
    default: return 0;
    }
}

static uint64_t taken(uint64_t reply) {
    if (QS_IS_REFUSED(reply) || reply == 0)
        return reply;
    replies++;
    named += cells_named();
    for (uint64_t i = 0; i < memory_length; i++)
        changed += memory[i] != before[i];
    memcpy(before, memory, sizeof memory);
    return reply;
}

/* One record worked on the board: its reply's length, or a refusal. */
static uint64_t work(unsigned kind, const uint8_t *body) {
    mark = (uint32_t)replies;
    switch (kind) {
    case PLATE_RECORD: return start(body);
    case CHARACTER_RECORD: return taken(QS_REPLY(CALL(character)(image, sizeof image, number_at(body), body[4], body[5], memory, memory_length, room, sizeof room)));
    case POLL_RECORD: return taken(QS_REPLY(CALL(poll)(image, sizeof image, number_at(body), memory, memory_length, room, sizeof room)));
    case MEASURED_RECORD: return CALL(measured)(image, sizeof image, number_at(body));
    case FAULT_RECORD: return CALL(fault)(image, sizeof image, body[0]);
    case POWER_ON_RECORD: return CALL(power_on)(image, sizeof image);
    default: return QS_R1;
    }
}

int main(void) {
    struct tape tape = whole_input();
    if (tape.bytes == NULL)
        return 1;
    fprintf(stderr, "places %" PRIuPTR " %zu %" PRIuPTR "\n", (uintptr_t)memory, sizeof memory, (uintptr_t)&mark);
    while (has_more(&tape)) {
        struct record record = next_record(&tape);
        if (record.body == NULL || QS_IS_REFUSED(work(record.kind, record.body)))
            return 1;
    }
    printf("%" PRIu64 " %" PRIu64 " %" PRIu64 "\n", replies, named, changed);
    return 0;
}
