/* A motor shop's host, to be copied: it puts a label tape onto a board, request by request, and shows how far it has come (02, Req 04).
 *
 *     program             the label of tools/labels/spindle.txt, which stands below as bytes
 *     program TAPE        the label tape in that file; tools/label.py makes one of a text
 *
 * The shop's side calls libhandheld.a and nothing else. At the other end of an imagined line is our board, in memory, by libquicksetter.a: where it is called,
 * in exchange, a real host has its UART. Ends in 0 when the board holds what the tape says, in 1 where a request failed, in 2 for a tape or a file that cannot
 * be used. */
#include "programmer.h"
#include "quicksetter.h"

#include <errno.h>
#include <inttypes.h>
#include <stdbool.h>
#include <stdio.h>
#include <string.h>

enum { DONE = 0, FAILED = 1, UNUSABLE = 2 };

/* ---- the label tape ------------------------------------------------------------------------------------------------------------------------------------- */

struct tape {
    const uint8_t *bytes;
    uint64_t length;
};

/* Each record begins with its length, which counts what follows, and its kind; a field's goes on with its status. */
static const uint8_t SPINDLE[] = {
    6, 0, 0x20, 0, 0x55, 0x55, 0x55, 0x55, /* Code0 to Code3, as a board is delivered */
    67, 0, 0x21, 0, 0xC3,                  /* field 0: four blocks, the name plate */
    'S', 'P', 'I', 'N', 'D', 'L', 'E', ' ', 'M', 'O', 'T', 'O', 'R', ' ', 'S', 'M', '-', '1', '3', '2', '-', '4', ' ', ' ',
    '7', '.', '5', ' ', 'k', 'W', ' ', '1', '8', ' ', 'A', ' ', '3', 'x', '4', '0', '0', ' ', 'V', ' ',
    '6', '0', '0', '0', '/', '1', '8', '0', '0', '0', ' ', '1', '/', 'm', 'i', 'n', 0, 0, 0, 0,
    35, 0, 0x21, 0, 0xD9, /* field 1: two blocks, the shop's notes; reading and storing want Code1 */
    'o', 'r', 'd', 'e', 'r', ' ', '"', '2', '0', '8', '1', '5', '"', ':', ' ', 'b', 'e', 'a', 'r', 'i', 'n', 'g', 's', ' ', 'n', 'e', 'w',
    0x07, 0xE8, 0x03, 0x0F, 0,
    19, 0, 0x21, 0, 0x80, /* field 2: one block, the serial number, read-only */
    'S', 'N', ' ', '4', '7', '1', '1', '-', '0', '8', '1', '5', 0, 0, 0, 0,
    35, 0, 0x21, 0, 0xE1, /* field 3: two blocks, currents against speed; changing the field wants Code2 */
    0x00, 0x00, 0x00, 0xB4, 0x0B, 0xB8, 0x00, 0xB4, 0x17, 0x70, 0x00, 0xB4, 0x23, 0x28, 0x00, 0x78,
    0x2E, 0xE0, 0x00, 0x5A, 0x3A, 0x98, 0x00, 0x48, 0x46, 0x50, 0x00, 0x3C, 0xFF, 0xFF, 0xFF, 0xFF,
};

/* The codes, and 256 fields of eight blocks. One byte more is read, so that a longer file is seen. */
enum { LONGEST_TAPE = 8 + 256 * (5 + 128) };

static uint8_t from_file[LONGEST_TAPE + 1];

static bool read_bytes(FILE *file, const char *name, uint64_t *length) {
    *length = fread(from_file, 1, sizeof from_file, file);
    if (ferror(file)) {
        fprintf(stderr, "program: %s: %s\n", name, strerror(errno));
        return false;
    }
    if (*length > LONGEST_TAPE) {
        fprintf(stderr, "program: %s: over %d bytes, which is more than any label tape has\n", name, LONGEST_TAPE);
        return false;
    }
    return true;
}

static bool read_tape(const char *name, struct tape *tape) {
    FILE *file = fopen(name, "rb");
    if (file == NULL) {
        fprintf(stderr, "program: %s: %s\n", name, strerror(errno));
        return false;
    }
    tape->bytes = from_file;
    bool good = read_bytes(file, name, &tape->length);
    (void)fclose(file);
    return good;
}

/* What qp_start has against a tape. Which of these a bad record is, tools/label.py --show tells. */
static void tell_bad_tape(uint64_t refusal) {
    if (QP_REFUSAL(refusal) == QP_WRONG_SIZE)
        fprintf(stderr, "program: wrong size at place %" PRIu32 ": the field's bytes are not as many as its status says\n", QP_PLACE(refusal));
    else
        fprintf(stderr, "program: bad record at place %" PRIu32 ": cut short, an unknown kind, codes missing or twice, no bit 7, or a 257th field\n",
                QP_PLACE(refusal));
}

/* ---- the line, and the board at its other end ----------------------------------------------------------------------------------------------------------- */

enum { TOTAL = 112, BITS = 24, ADDRESS = 5, TICKS = 4, PAUSE = 55, CHARACTER_TICKS = 11 * TICKS };

static struct {
    uint8_t image[QS_IMAGE_LENGTH];
    uint8_t memory[QS_MEMORY_LENGTH(TOTAL)];
    uint8_t room[QS_REPLY_ROOM];
    uint32_t tick;
} board;

/* What goes over the line. */
static uint8_t request[QP_REQUEST_BUFFER], reply[QP_REPLY_ROOM];

/* Sends the request and waits for the reply. Returns its length, 0 for silence.
 * A real host sends the characters one behind the other and throws its own echo away. The reply is over when the line has been still for the pause; it is
 * overdue when nothing has come in the time that 000 gives the command, from 5 ms for 4Eh to 250 ms for 4Bh: quicksetter.h has them beside the commands. */
static uint64_t exchange(uint64_t length) {
    uint64_t result = 0;
    for (uint64_t i = 0; i < length; i++) {
        board.tick += CHARACTER_TICKS;
        result = qs_character(board.image, sizeof board.image, board.tick, request[i], 0, board.memory, sizeof board.memory, board.room, sizeof board.room);
    }
    board.tick += QS_SLEEP(result);
    result = qs_poll(board.image, sizeof board.image, board.tick, board.memory, sizeof board.memory, board.room, sizeof board.room);
    uint64_t replied = QS_IS_REFUSED(result) ? 0 : QS_REPLY(result);
    memcpy(reply, board.room, replied);
    return replied;
}

static bool asked(uint8_t command, const uint8_t *data, uint64_t data_length) {
    uint64_t length = qs_request(ADDRESS, command, data, data_length, request, sizeof request);
    uint64_t replied = exchange(length);
    return qs_judge(request, length, reply, replied) == QS_VERDICT_DONE;
}

/* What the motor before left on the board: two blocks for everybody, and one that is read-only and wants Code1. */
static bool board_of_another_motor(void) {
    static const uint8_t label[QS_LABEL_LENGTH]; /* nobody asks for it here */
    static const uint8_t first[] = {0, 0xC1, 0x55}, bytes[] = {0, 0, 4, 0x55, 'U', 'S', 'E', 'D'}, second[] = {1, 0x98, 0x55};
    bool good = qs_fresh(TOTAL, BITS, ADDRESS, TICKS, PAUSE, label, sizeof label, board.image, sizeof board.image) == 0;
    good = good && asked(QS_CREATE_FIELD, first, sizeof first);
    good = good && asked(QS_STORE_DATA, bytes, sizeof bytes);
    return good && asked(QS_CREATE_FIELD, second, sizeof second);
}

static unsigned blocks_of(uint8_t status) {
    return (status & QS_STATUS_BLOCKS) + 1u;
}

static void tell_field(unsigned field, uint8_t status) {
    unsigned blocks = blocks_of(status), code = (status & QS_STATUS_CODE_NUMBER) >> 4;
    printf("  field %u: status %02Xh, %u block%s, %s, ", field, status, blocks, blocks == 1 ? "" : "s",
           status & QS_STATUS_WRITE_ENABLED ? "write-enabled" : "read-only");
    printf(status & QS_STATUS_CODE_WANTED ? "reading and storing want Code%u\n" : "only changing it wants Code%u\n", code);
}

/* A look into memory, which no master has: behind the blocks stand the status bytes, those of the fields first. */
static void tell_board(void) {
    const uint8_t *statuses = board.memory + TOTAL * QS_BLOCK;
    unsigned fields = 0, taken = 0;
    for (; fields < TOTAL && statuses[fields] & QS_STATUS_EXISTS; fields++)
        taken += blocks_of(statuses[fields]);
    printf("done: the board holds %u field%s, and %u of %u blocks are free\n", fields, fields == 1 ? "" : "s", TOTAL - taken, TOTAL);
    for (unsigned field = 0; field < fields; field++)
        tell_field(field, statuses[field]);
}

/* ---- words ---------------------------------------------------------------------------------------------------------------------------------------------- */

static const char *const REQUESTS[] = {
    [QP_COUNT] = "count the fields", [QP_LOOK] = "read the status of field", [QP_REMOVE] = "delete field", [QP_CREATE] = "create field",
    [QP_STORE] = "store field",      [QP_READ] = "read back field",          [QP_LOCK] = "lock field",
};

/* B0 to B6. */
static const char *const JUDGEMENTS[] = {
    "the request is none that the bench writes",
    "no reply came, or a scrap of one",
    "the reply's checksum is wrong",
    "the reply comes from another address",
    "the reply answers another command",
    "the reply is not as long as it should be",
    "the reply names another field, offset, count or status",
};

static const char *const ERRORS[] = {
    [QS_ERROR_TABLE_UNSOUND] = "the board's table of fields is damaged",
    [QS_ERROR_PARITY] = "the board heard a parity fault",
    [QS_ERROR_CHECKSUM] = "the board heard a wrong checksum",
    [QS_ERROR_UNKNOWN_COMMAND] = "the board does not know the command",
    [QS_ERROR_WRONG_LENGTH] = "the board heard a request of another length",
    [QS_ERROR_WRONG_ARGUMENT] = "the board does not take a number of the request",
    [QS_ERROR_READ_ONLY] = "the field is read-only",
    [QS_ERROR_WRONG_CODE] = "the tape's code is not the one in force",
    [QS_ERROR_NO_ROOM] = "the board has not blocks enough, or the field is not its last",
    [QS_ERROR_BEYOND_FIELD] = "the field is shorter than what it is to hold",
    [QS_ERROR_NO_FIELD] = "the board has no such field",
};

static const char *error_words(uint8_t code) {
    bool known = code < sizeof ERRORS / sizeof *ERRORS && ERRORS[code] != NULL;
    return known ? ERRORS[code] : "an error of which this host has no words";
}

static void tell_request(uint64_t run) {
    printf("%s", REQUESTS[QP_STAGE(run)]);
    if (QP_STAGE(run) != QP_COUNT)
        printf(" %u", QP_FIELD(run));
}

static void tell_why(uint64_t run) {
    unsigned number = QP_WHY_NUMBER(run);
    switch (QP_WHY(run)) {
    case QP_WHY_JUDGEMENT: printf("%s (B%u)\n", JUDGEMENTS[number], number); break;
    case QP_WHY_ERROR: printf("%s (%02Xh)\n", error_words(QP_WHY_NUMBER(run)), number); break;
    default: printf("what was read back is not what was stored\n");
    }
}

/* ---- the shop's side: what goes into a handheld --------------------------------------------------------------------------------------------------------- */

/* One line for a request that was answered as wanted, with what the reply told. */
static void tell_answer(uint64_t before, uint64_t after, uint64_t progress) {
    printf("%4" PRIu32 " of %" PRIu32 "  ", QP_ANSWERED(progress), QP_IN_ALL(progress));
    tell_request(before);
    if (QP_STAGE(before) == QP_COUNT)
        printf(": %u", QP_PRESENT(after));
    if (QP_STAGE(before) == QP_LOOK)
        printf(": %02Xh", QP_STATUS(after));
    printf("\n");
}

static void tell_failure(uint64_t run, uint64_t progress) {
    printf("failed after %" PRIu32 " of %" PRIu32 " requests: ", QP_ANSWERED(progress), QP_IN_ALL(progress));
    tell_request(run);
    printf(": ");
    tell_why(run);
}

/* One request after another until none is due. Tape and run are those of the calls before and the buffer is long enough, so that no call is refused. */
static uint64_t run_to_its_end(uint64_t run, struct tape tape) {
    uint64_t length;
    while ((length = qp_next(run, tape.bytes, tape.length, request, sizeof request)) != 0) {
        uint64_t before = run;
        uint64_t replied = exchange(length);
        run = qp_heard(run, tape.bytes, tape.length, reply, replied);
        if (!QP_HAS_FAILED(run))
            tell_answer(before, run, qp_progress(run, tape.bytes, tape.length));
    }
    return run;
}

/* The tape is checked whole before anything is sent. */
static int programmed(struct tape tape) {
    uint64_t run = qp_start(ADDRESS, tape.bytes, tape.length);
    if (QP_IS_REFUSED(run)) {
        tell_bad_tape(run);
        return UNUSABLE;
    }
    run = run_to_its_end(run, tape);
    if (QP_HAS_FAILED(run)) {
        tell_failure(run, qp_progress(run, tape.bytes, tape.length));
        return FAILED;
    }
    tell_board();
    return DONE;
}

int main(int argc, char **argv) {
    struct tape tape = {SPINDLE, sizeof SPINDLE};
    if (argc > 2) {
        fprintf(stderr, "program [TAPE]: puts a label tape onto a board\n");
        return UNUSABLE;
    }
    if (argc == 2 && !read_tape(argv[1], &tape))
        return UNUSABLE;
    if (!board_of_another_motor()) {
        fprintf(stderr, "program: the board in memory does not answer\n");
        return FAILED;
    }
    return programmed(tape);
}
