/* The answer program over the C entry points, for good tapes: a tape on standard input, its answers on standard output. A bad record ends it with status 1. */
#include "board.h"
#include "records.h"

static const uint8_t label[QS_LABEL_LENGTH]; /* 00h on a tape: 02, "Req 01" */
static uint8_t image[QS_IMAGE_LENGTH], memory[QS_MEMORY_LENGTH(112)], room[QS_REPLY_ROOM];
static uint64_t memory_length;

/* The reply's line: tick in decimal, bytes in hex. */
static void print_reply(uint32_t tick, uint64_t length) {
    static const char digits[] = "0123456789ABCDEF";
    char line[12 + 3 * QS_REPLY_ROOM];
    char number[10];
    size_t n = 0, first = sizeof number;
    do {
        number[--first] = digits[tick % 10];
        tick /= 10;
    } while (tick != 0);
    while (first < sizeof number)
        line[n++] = number[first++];
    for (uint64_t i = 0; i < length; i++) {
        line[n++] = ' ';
        line[n++] = digits[room[i] >> 4];
        line[n++] = digits[room[i] & 15];
    }
    line[n++] = '\n';
    fwrite(line, 1, n, stdout);
}

static uint64_t start(const uint8_t *body) {
    memory_length = QS_MEMORY_LENGTH(body[0]);
    return CALL(fresh)(body[0], body[1], body[2], body[3], body[4], label, sizeof label, image, sizeof image);
}

/* One record worked on the board: its reply's length, or a refusal. */
static uint64_t work(unsigned kind, const uint8_t *body) {
    switch (kind) {
    case PLATE_RECORD: return start(body);
    case CHARACTER_RECORD: return QS_REPLY(CALL(character)(image, sizeof image, number_at(body), body[4], body[5], memory, memory_length, room, sizeof room));
    case POLL_RECORD: return QS_REPLY(CALL(poll)(image, sizeof image, number_at(body), memory, memory_length, room, sizeof room));
    case MEASURED_RECORD: return CALL(measured)(image, sizeof image, number_at(body));
    case FAULT_RECORD: return CALL(fault)(image, sizeof image, body[0]);
    case POWER_ON_RECORD: return CALL(power_on)(image, sizeof image);
    default: return QS_R1;
    }
}

int main(void) {
    static char out[1 << 16];
    struct tape tape = whole_input();
    if (tape.bytes == NULL)
        return 1;
    setvbuf(stdout, out, _IOFBF, sizeof out);
    fputs("tick reply\n", stdout);
    while (has_more(&tape)) {
        struct record record = next_record(&tape);
        uint64_t replied = record.body == NULL ? QS_R1 : work(record.kind, record.body);
        if (QS_IS_REFUSED(replied))
            return 1;
        if (replied != 0)
            print_reply(number_at(record.body), replied);
    }
    return 0;
}
