/* Every call of programmer.h with good, extreme and damaged tapes, numbers and replies, and whole runs against our board and against boards of other makers.
 * Tape and reply end where memory ends, so that a read beyond them is a crash; the buffer stands between guard bytes. What a run must ask, and what our board
 * must hold after each request, is written here once more, by the words of 02, "Req 04". Prints what failed, ends in 1 if any did. */
#define _DEFAULT_SOURCE /* mmap */
#define PROGRAM "test_program.c"
#include "programmer.h"
#include "testing.h"

#include <stdlib.h>
#include <sys/mman.h>

/* ---- what one call is lent ------------------------------------------------------------------------------------------------------------------------------ */

enum { GUARD = 32, SPARE = 40, GUARD_BYTE = 0xA5, BUFFER_BYTE = 0xEE, ROOM = 1 << 17 };

struct lent {
    uint8_t guard0[GUARD];
    uint8_t buffer[QP_REQUEST_BUFFER + SPARE];
    uint8_t guard1[GUARD];
};

static struct lent lent, before;

/* The tape as it was made. A copy of it is lent, and of each reply, which ends here. */
static struct {
    uint8_t bytes[ROOM];
    size_t length;
} made;
static uint8_t *tape_end, *reply_end;

/* The end of ROOM bytes, behind which nothing can be read. */
static uint8_t *fenced(void) {
    uint8_t *bytes = mmap(NULL, 2 * ROOM, PROT_READ | PROT_WRITE, MAP_PRIVATE | MAP_ANONYMOUS, -1, 0);
    if (bytes == MAP_FAILED || mprotect(bytes + ROOM, ROOM, PROT_NONE) != 0) {
        perror(PROGRAM);
        exit(1);
    }
    return bytes + ROOM;
}

static const uint8_t *tape(void) {
    return tape_end - made.length;
}

static void lend_tape(void) {
    memcpy(tape_end - made.length, made.bytes, made.length);
}

static const uint8_t *lend_reply(const uint8_t *reply, size_t length) {
    return memcpy(reply_end - length, reply, length);
}

/* ---- the library's calls, all of them ------------------------------------------------------------------------------------------------------------------- */

enum call { CHECK, START, NEXT, HEARD, PROGRESS };

struct given {
    uint32_t address;
    uint64_t run, buffer_length;
    const uint8_t *reply;
    size_t reply_length;
};

static const uint8_t SILENCE[1];

static uint64_t call_with(enum call call, struct given g) {
    switch (call) {
    case CHECK: return qp_check(tape(), made.length);
    case START: return qp_start(g.address, tape(), made.length);
    case NEXT: return qp_next(g.run, tape(), made.length, lent.buffer, g.buffer_length);
    case HEARD: return qp_heard(g.run, tape(), made.length, lend_reply(g.reply, g.reply_length), g.reply_length);
    default: return qp_progress(g.run, tape(), made.length);
    }
}

/* A call's result. All that it was lent is as it was, but for a request at the front of the buffer. */
static uint64_t called(enum call call, struct given g) {
    memset(lent.buffer, BUFFER_BYTE, sizeof lent.buffer);
    before = lent;
    uint64_t result = call_with(call, g);
    bool written = call == NEXT && result <= QP_REQUEST_BUFFER;
    memcpy(before.buffer, lent.buffer, written ? result : 0);
    check(memcmp(&before, &lent, sizeof lent) == 0 && memcmp(tape(), made.bytes, made.length) == 0, "what a call leaves", call);
    if (call == HEARD)
        check(memcmp(reply_end - g.reply_length, g.reply, g.reply_length) == 0, "what a call leaves of the reply", g.reply_length);
    return result;
}

static uint64_t check_tape(void) {
    return called(CHECK, (struct given){0});
}

static uint64_t start(uint32_t address) {
    return called(START, (struct given){.address = address});
}

static uint64_t next_with(uint64_t run, uint64_t buffer_length) {
    return called(NEXT, (struct given){.run = run, .buffer_length = buffer_length});
}

static uint64_t next(uint64_t run) {
    return next_with(run, QP_REQUEST_BUFFER);
}

static uint64_t heard(uint64_t run, const uint8_t *reply, size_t length) {
    return called(HEARD, (struct given){.run = run, .reply = reply, .reply_length = length});
}

static uint64_t progress(uint64_t run) {
    return called(PROGRESS, (struct given){.run = run});
}

/* ---- bytes in words ------------------------------------------------------------------------------------------------------------------------------------- */

/* Hex pairs; "00*16" is sixteen of them. */
static size_t bytes_of(const char *said, uint8_t *bytes) {
    size_t n = 0;
    unsigned value, times;
    int used;
    while (sscanf(said, "%2x%n", &value, &used) == 1) {
        said += used;
        times = 1;
        if (sscanf(said, "*%u%n", &times, &used) == 1)
            said += used;
        memset(bytes + n, (int)value, times);
        n += times;
    }
    return n;
}

static size_t put(uint8_t *bytes, const uint8_t *from, size_t n) {
    memcpy(bytes, from, n);
    return n;
}

static size_t seal(uint8_t *bytes, size_t n) {
    bytes[n] = xor_of(bytes, n);
    return n + 1;
}

/* With the checksum behind. */
static size_t sealed(const char *said, uint8_t *bytes) {
    return seal(bytes, bytes_of(said, bytes));
}

static void lend_said(const char *said) {
    made.length = bytes_of(said, made.bytes);
    lend_tape();
}

/* ---- what a shop wants, and the tape that says it ------------------------------------------------------------------------------------------------------- */

enum { MOST_FIELDS = 256, LARGEST_FIELD = 128, LARGEST_TOTAL = 112 };

struct field {
    uint8_t status;
    uint8_t bytes[LARGEST_FIELD];
};

static struct {
    uint8_t codes[4];
    unsigned number;
    struct field fields[MOST_FIELDS + 1];
} wish;

static unsigned blocks_of(uint8_t status) {
    return (status & QS_STATUS_BLOCKS) + 1u;
}

static unsigned size_of(uint8_t status) {
    return blocks_of(status) * QS_BLOCK;
}

static bool is_read_only(uint8_t status) {
    return (status & QS_STATUS_WRITE_ENABLED) == 0;
}

/* A field of this status whose bytes are thrown. */
static struct field thrown(uint8_t status) {
    struct field field = {.status = status};
    for (unsigned i = 0; i < size_of(status); i++)
        field.bytes[i] = (uint8_t)dice();
    return field;
}

static void put_record(unsigned kind, const uint8_t *body, size_t n) {
    uint8_t head[] = {(uint8_t)(n + 2), (uint8_t)((n + 2) >> 8), (uint8_t)kind, (uint8_t)(kind >> 8)};
    memcpy(made.bytes + made.length, head, sizeof head);
    memcpy(made.bytes + made.length + sizeof head, body, n);
    made.length += sizeof head + n;
}

/* The status stands before its bytes in struct field as in the record. */
static void lend_wish(void) {
    made.length = 0;
    put_record(0x20, wish.codes, sizeof wish.codes);
    for (unsigned i = 0; i < wish.number; i++)
        put_record(0x21, (const uint8_t *)&wish.fields[i], 1 + size_of(wish.fields[i].status));
    lend_tape();
}

/* Fields of these statuses, by the codes 11h, 22h, 33h and 44h. */
static void want(const char *statuses) {
    uint8_t said[MOST_FIELDS + 1];
    memcpy(wish.codes, "\x11\x22\x33\x44", sizeof wish.codes);
    wish.number = (unsigned)bytes_of(statuses, said);
    for (unsigned i = 0; i < wish.number; i++)
        wish.fields[i] = thrown(said[i]);
    lend_wish();
}

static uint8_t code_for(uint8_t status) {
    return wish.codes[status >> 4 & 3];
}

/* ---- tapes ---------------------------------------------------------------------------------------------------------------------------------------------- */

static uint64_t at_place(uint64_t refusal, uint64_t place) {
    return place << 32 | refusal;
}

/* The run that failed for this reason. */
static uint64_t because(uint64_t run, unsigned why, unsigned number) {
    return run | (uint64_t)why << 24 | (uint64_t)number << 32;
}

/* Every call refuses so, whatever else it is given. */
static void all_refuse(uint64_t refusal, const char *name, unsigned long number) {
    static const uint32_t addresses[] = {0, 31, 32, 255, 256, UINT32_MAX};
    static const uint64_t runs[] = {QP_COUNT, QP_DONE, 0, UINT64_MAX}, buffers[] = {QP_REQUEST_BUFFER, QP_REQUEST_BUFFER - 1, 0};
    check(check_tape() == refusal, name, number);
    for (size_t i = 0; i < COUNT(addresses); i++)
        check(start(addresses[i]) == refusal, name, number);
    for (size_t i = 0; i < COUNT(runs) * COUNT(buffers); i++) {
        uint64_t run = runs[i % COUNT(runs)];
        check(next_with(run, buffers[i / COUNT(runs)]) == refusal, name, number);
        check(heard(run, SILENCE, i % 2) == refusal && progress(run) == refusal, name, number);
    }
}

static void is_taken(const char *name, unsigned long number) {
    check(check_tape() == 0 && start(0) == QP_COUNT && next(QP_COUNT) == 3 && !QP_IS_REFUSED(progress(QP_COUNT)), name, number);
    check(heard(QP_COUNT, SILENCE, 0) == because(QP_COUNT, QP_WHY_JUDGEMENT, 1), name, number);
}

#define CODES "06 00 20 00 11 22 33 44 "
#define ONE_BLOCK "13 00 21 00 C0 5A*16 "
#define TWO_BLOCKS "23 00 21 00 99 A5*32 "

/* 02, "records of length, two-byte kind and body, first and once kind 20h with the four access codes, then kind 21h for each field (status with bit 7 set, then
 * exactly its bytes)"; "Refusals, in order: bad tape record; body not the field's size". */
static const struct {
    const char *name, *said;
    uint64_t refusal, place;
} TAPES[] = {
    {"an empty tape", "", QP_BAD_RECORD, 0},
    {"a length alone", "06 00", QP_BAD_RECORD, 0},
    {"a head alone", "06 00 20 00", QP_BAD_RECORD, 0},
    {"codes cut short", "06 00 20 00 11 22 33", QP_BAD_RECORD, 0},
    {"three codes", "05 00 20 00 11 22 33", QP_BAD_RECORD, 0},
    {"three codes and more behind", "05 00 20 00 11 22 33 44", QP_BAD_RECORD, 0},
    {"five codes", "07 00 20 00 11 22 33 44 55", QP_BAD_RECORD, 0},
    {"no codes in their record", "02 00 20 00", QP_BAD_RECORD, 0},
    {"a length of 0", "00 00 20 00 11 22 33 44", QP_BAD_RECORD, 0},
    {"a length of 1", "01 00 20 00 11 22 33 44", QP_BAD_RECORD, 0},
    {"the length's high byte first", "00 06 20 00 11 22 33 44", QP_BAD_RECORD, 0},
    {"the kind's high byte first", "06 00 00 20 11 22 33 44", QP_BAD_RECORD, 0},
    {"kind 0120h", "06 00 20 01 11 22 33 44", QP_BAD_RECORD, 0},
    {"kind 001Fh first", "06 00 1F 00 11 22 33 44", QP_BAD_RECORD, 0},
    {"a field first", ONE_BLOCK, QP_BAD_RECORD, 0},
    {"a field before the codes", ONE_BLOCK CODES, QP_BAD_RECORD, 0},
    {"a session's tape, with its plate", "07 00 01 00 70 18 00 04 37", QP_BAD_RECORD, 0},
    {"a text", "63 6F 64 65 73 20 35 35 20 35 35 20 35 35 20 35 35 0A", QP_BAD_RECORD, 0},
    {"codes alone", CODES, 0, 0},
    {"codes of any bytes", "06 00 20 00 00 FF 80 7F", 0, 0},
    {"codes and a byte", CODES "00", QP_BAD_RECORD, 8},
    {"codes and a length", CODES "13 00", QP_BAD_RECORD, 8},
    {"codes and a kind cut short", CODES "13 00 21", QP_BAD_RECORD, 8},
    {"codes twice", CODES CODES, QP_BAD_RECORD, 8},
    {"codes again behind a field", CODES ONE_BLOCK CODES, QP_BAD_RECORD, 29},
    {"one field", CODES ONE_BLOCK, 0, 0},
    {"two fields", CODES ONE_BLOCK TWO_BLOCKS, 0, 0},
    {"a field of eight blocks, read-only", CODES "83 00 21 00 87 00*128", 0, 0},
    {"a status of FFh", CODES "83 00 21 00 FF FF*128", 0, 0},
    {"a field's kind 0022h", CODES "13 00 22 00 C0 5A*16", QP_BAD_RECORD, 8},
    {"a field's kind 0121h", CODES "13 00 21 01 C0 5A*16", QP_BAD_RECORD, 8},
    {"a field's kind, high byte first", CODES "13 00 00 21 C0 5A*16", QP_BAD_RECORD, 8},
    {"kind 0000h", CODES "02 00 00 00", QP_BAD_RECORD, 8},
    {"kind FFFFh behind a field", CODES ONE_BLOCK "02 00 FF FF", QP_BAD_RECORD, 29},
    {"a field without a status", CODES "02 00 21 00", QP_BAD_RECORD, 8},
    {"a field's length of 0", CODES "00 00 21 00 C0 5A*16", QP_BAD_RECORD, 8},
    {"a field's length of 1", CODES "01 00 21 00 C0 5A*16", QP_BAD_RECORD, 8},
    {"bit 7 clear", CODES "13 00 21 00 40 5A*16", QP_BAD_RECORD, 8},
    {"bit 7 clear, all others set", CODES "83 00 21 00 7F 5A*128", QP_BAD_RECORD, 8},
    {"bit 7 clear in the second", CODES ONE_BLOCK "13 00 21 00 00 5A*16", QP_BAD_RECORD, 29},
    {"a field cut by a byte", CODES "13 00 21 00 C0 5A*15", QP_BAD_RECORD, 8},
    {"the second cut by a byte", CODES ONE_BLOCK "23 00 21 00 99 A5*31", QP_BAD_RECORD, 29},
    {"a byte behind the last field", CODES ONE_BLOCK "5A", QP_BAD_RECORD, 29},
    {"a record of 65,535, cut", CODES "FF FF 21 00 C0 5A*16", QP_BAD_RECORD, 8},
    {"body one short", CODES "12 00 21 00 C0 5A*15", QP_WRONG_SIZE, 8},
    {"body one long", CODES "14 00 21 00 C0 5A*17", QP_WRONG_SIZE, 8},
    {"a status alone", CODES "03 00 21 00 C0", QP_WRONG_SIZE, 8},
    {"one block for two", CODES "13 00 21 00 C1 5A*16", QP_WRONG_SIZE, 8},
    {"two blocks for one", CODES "23 00 21 00 C0 5A*32", QP_WRONG_SIZE, 8},
    {"eight blocks, one short", CODES "82 00 21 00 C7 5A*127", QP_WRONG_SIZE, 8},
    {"eight blocks, one long", CODES "84 00 21 00 C7 5A*129", QP_WRONG_SIZE, 8},
    {"nine blocks", CODES "93 00 21 00 C7 5A*144", QP_WRONG_SIZE, 8},
    {"one block and 256 bytes", CODES "13 01 21 00 C0 5A*272", QP_WRONG_SIZE, 8},
    {"a record of 65,535", CODES "FF FF 21 00 C0 5A*65532", QP_WRONG_SIZE, 8},
    {"body one short in the second", CODES ONE_BLOCK "22 00 21 00 99 A5*31", QP_WRONG_SIZE, 29},
    {"body one long in the last but one", CODES ONE_BLOCK "24 00 21 00 99 A5*33 " ONE_BLOCK, QP_WRONG_SIZE, 29},
    {"two wrong sizes: the first", CODES "12 00 21 00 C0 5A*15 " "22 00 21 00 99 A5*31", QP_WRONG_SIZE, 8},
    {"a wrong size, then a bad record: the bad one", CODES "12 00 21 00 C0 5A*15 " ONE_BLOCK CODES, QP_BAD_RECORD, 49},
    {"a wrong size, then a byte: the byte", CODES "12 00 21 00 C0 5A*15 " "00", QP_BAD_RECORD, 28},
    {"a wrong size, then bit 7 clear", CODES "14 00 21 00 C0 5A*17 " "13 00 21 00 40 5A*16", QP_BAD_RECORD, 30},
    {"a bad record, then a wrong size: the bad one", CODES "13 00 21 00 40 5A*16 " "12 00 21 00 C0 5A*15", QP_BAD_RECORD, 8},
    {"two bad records: the first", CODES "13 00 21 00 40 5A*16 " "02 00 00 00", QP_BAD_RECORD, 8},
    {"bit 7 clear and a wrong size in one", CODES "12 00 21 00 40 5A*15", QP_BAD_RECORD, 8},
};

static void test_tapes(void) {
    for (size_t i = 0; i < COUNT(TAPES); i++) {
        lend_said(TAPES[i].said);
        if (TAPES[i].refusal == 0)
            is_taken(TAPES[i].name, i);
        else
            all_refuse(at_place(TAPES[i].refusal, TAPES[i].place), TAPES[i].name, i);
    }
}

/* Record number 0 is the codes; a field's number is one byte. */
static bool may_stand(unsigned number, unsigned kind, const uint8_t *body, size_t n) {
    if (number == 0)
        return kind == 0x20 && n == 4;
    return number <= MOST_FIELDS && kind == 0x21 && n != 0 && (body[0] & QS_STATUS_EXISTS) != 0;
}

/* What is wrong with the tape that was made, by a reading of its own. */
static uint64_t fault_of_made(void) {
    uint64_t wrong = 0;
    size_t place = 0;
    for (unsigned number = 0; number == 0 || place < made.length; number++) {
        const uint8_t *record = made.bytes + place;
        size_t left = made.length - place, follows = left < 4 ? 0 : record[0] + 256u * record[1];
        if (follows < 2 || follows > left - 2 || !may_stand(number, record[2] + 256u * record[3], record + 4, follows - 2))
            return at_place(QP_BAD_RECORD, place);
        if (wrong == 0 && number != 0 && follows - 3 != size_of(record[4]))
            wrong = at_place(QP_WRONG_SIZE, place);
        place += 2 + follows;
    }
    return wrong;
}

static void is_judged(const char *name, unsigned long number) {
    lend_tape();
    check(check_tape() == fault_of_made(), name, number);
    check(start(31) == (fault_of_made() != 0 ? fault_of_made() : ((uint64_t)31 << 48 | QP_COUNT)), name, number);
}

/* Each beginning of a tape, and each byte of it with each value. */
static void test_damaged_tapes(void) {
    want("C0 99 E1");
    for (size_t whole = made.length; made.length > 0; made.length--)
        is_judged("a tape cut short", whole - made.length);
    want("C0 99 E1");
    for (size_t i = 0; i < made.length * 256; i++) {
        uint8_t kept = made.bytes[i / 256];
        made.bytes[i / 256] = (uint8_t)i;
        is_judged("a tape with another byte", i);
        made.bytes[i / 256] = kept;
    }
}

/* Kinds, statuses and sizes that are right but for one throw in some. One throw to a line: C does not say in which order those of one line come. */
static void put_thrown_record(bool first) {
    uint8_t body[2 * LARGEST_FIELD];
    memset(body, (int)below(256), sizeof body);
    body[0] = (uint8_t)dice();
    if (!once_in(40))
        body[0] |= QS_STATUS_EXISTS;
    unsigned size = first ? 4 : 1 + size_of(body[0]), kind = first ? 0x20 : 0x21;
    if (once_in(50))
        kind ^= 1u << below(16);
    if (once_in(30))
        size = below(sizeof body);
    put_record(kind, body, size);
}

static void test_thrown_tapes(void) {
    enum { ROUNDS = 6000 };
    for (unsigned long i = 0; i < ROUNDS; i++) {
        made.length = 0;
        for (uint32_t number = 0, records = below(12); number < records; number++)
            put_thrown_record(number == 0);
        if (made.length != 0 && once_in(10))
            made.length -= 1;
        is_judged("a thrown tape", i);
    }
}

/* ---- what a run must ask -------------------------------------------------------------------------------------------------------------------------------- */

struct step {
    uint8_t stage, field, status;
};

static struct {
    struct step steps[1 + 2 * 255 + 4 * MOST_FIELDS];
    unsigned length, present;
    uint8_t statuses[255]; /* of the fields present */
    uint32_t address;
} script;

static void add_step(uint8_t stage, unsigned field, uint8_t status) {
    script.steps[script.length++] = (struct step){stage, (uint8_t)field, status};
}

/* 02, "Statuses of fields present are read before they are deleted"; "deletes the fields present from last to first, creates the wanted ones, stores them ..
 * and reads them back"; "Read-only fields are created write-enabled and locked afterwards". */
static void write_script(uint32_t address, const uint8_t *statuses, unsigned present) {
    script.length = 0;
    script.present = present;
    script.address = address;
    memcpy(script.statuses, statuses, present);
    add_step(QP_COUNT, 0, 0);
    for (unsigned k = present; k-- > 0;) {
        add_step(QP_LOOK, k, 0);
        add_step(QP_REMOVE, k, statuses[k]);
    }
    for (unsigned i = 0; i < wish.number; i++) {
        add_step(QP_CREATE, i, 0);
        add_step(QP_STORE, i, 0);
        add_step(QP_READ, i, 0);
        if (is_read_only(wish.fields[i].status))
            add_step(QP_LOCK, i, 0);
    }
}

/* The run when so many requests are answered as wanted. */
static uint64_t run_at(unsigned answered) {
    struct step s = answered < script.length ? script.steps[answered] : (struct step){QP_DONE, 0, 0};
    uint64_t present = answered == 0 ? 0 : script.present;
    return s.stage | (uint64_t)s.field << 8 | (uint64_t)s.status << 16 | present << 40 | (uint64_t)script.address << 48;
}

static uint64_t progress_at(unsigned answered) {
    return (uint64_t)answered << 32 | (script.length - (answered == 0 ? 2 * script.present : 0));
}

static size_t shape(uint8_t *bytes, uint8_t field, uint8_t status, uint8_t code) {
    return put(bytes, (uint8_t[]){0x4D, field, status, code}, 4);
}

static size_t part(uint8_t *bytes, uint8_t command, uint8_t field, uint8_t status) {
    return put(bytes, (uint8_t[]){command, field, 0, (uint8_t)size_of(status), code_for(status)}, 5);
}

/* Command and data of a step. */
static size_t body_of(struct step s, uint8_t *bytes) {
    const struct field *wanted = &wish.fields[s.field];
    switch (s.stage) {
    case QP_COUNT: return put(bytes, (uint8_t[]){0x4E}, 1);
    case QP_LOOK: return put(bytes, (uint8_t[]){0x4C, s.field}, 2);
    case QP_REMOVE: return shape(bytes, s.field, s.status & 0x7F, code_for(s.status));
    case QP_CREATE: return shape(bytes, s.field, wanted->status | QS_STATUS_WRITE_ENABLED, code_for(wanted->status));
    case QP_STORE: return part(bytes, 0x4B, s.field, wanted->status) + put(bytes + 5, wanted->bytes, size_of(wanted->status));
    case QP_READ: return part(bytes, 0x4A, s.field, wanted->status);
    default: return shape(bytes, s.field, wanted->status, code_for(wanted->status));
    }
}

static size_t request_of(struct step s, uint8_t *bytes) {
    bytes[0] = script.address == QP_BROADCAST ? 0xFF : (uint8_t)(0x40 + script.address);
    return seal(bytes, 1 + body_of(s, bytes + 1));
}

/* ---- our board, and what it must hold ------------------------------------------------------------------------------------------------------------------- */

enum { FREE_BYTE = 0x77 };

static struct {
    struct plate plate;
    uint8_t image[QS_IMAGE_LENGTH], memory[QS_MEMORY_LENGTH(LARGEST_TOTAL)], room[QS_REPLY_ROOM];
    uint32_t tick;
} board;

/* The fields that it must hold, and the most blocks that they ever had. */
static struct {
    struct field fields[LARGEST_TOTAL];
    unsigned number, most;
} held;

static unsigned blocks_held(void) {
    unsigned blocks = 0;
    for (unsigned i = 0; i < held.number; i++)
        blocks += blocks_of(held.fields[i].status);
    return blocks;
}

/* What a request does that is answered without an error. A granted block is 00h. */
static void hold(struct step s) {
    const struct field *wanted = &wish.fields[s.field];
    struct field *field = &held.fields[s.field];
    if (s.stage == QP_REMOVE)
        held.number--;
    if (s.stage == QP_CREATE) {
        *field = (struct field){.status = wanted->status | QS_STATUS_WRITE_ENABLED};
        held.number++;
    }
    if (s.stage == QP_STORE)
        memcpy(field->bytes, wanted->bytes, size_of(wanted->status));
    if (s.stage == QP_LOCK)
        field->status = wanted->status;
    if (held.most < blocks_held())
        held.most = blocks_held();
}

/* Memory that holds exactly these fields: blocks given back are 00h, and those that were never granted are as they were. */
static void write_memory(uint8_t *memory) {
    size_t data = board.plate.total * QS_BLOCK, n = 0;
    memset(memory, FREE_BYTE, data);
    memset(memory, 0, held.most * QS_BLOCK);
    memset(memory + data, 0, board.plate.total);
    for (unsigned i = 0; i < held.number; i++) {
        memcpy(memory + n, held.fields[i].bytes, size_of(held.fields[i].status));
        n += size_of(held.fields[i].status);
        memory[data + i] = held.fields[i].status;
    }
}

static bool holds_exactly(void) {
    static uint8_t expected[QS_MEMORY_LENGTH(LARGEST_TOTAL)];
    write_memory(expected);
    return memcmp(board.memory, expected, QS_MEMORY_LENGTH(board.plate.total)) == 0;
}

/* Our board with fields of these statuses and the wish's codes in force; the run's script is that for its own address. */
static void old_board(struct plate plate, const char *statuses) {
    static const uint8_t label[QS_LABEL_LENGTH];
    uint8_t said[LARGEST_TOTAL];
    board.plate = plate;
    check(qs_fresh(plate.total, plate.bits, plate.address, plate.ticks, plate.pause, label, sizeof label, board.image, sizeof board.image) == 0, "a board", 0);
    memcpy(board.image + QS_IMAGE_CODES, wish.codes, QS_IMAGE_CODES_SIZE);
    held.number = (unsigned)bytes_of(statuses, said);
    for (unsigned i = 0; i < held.number; i++)
        held.fields[i] = thrown(said[i]);
    held.most = blocks_held();
    check(held.most <= plate.total, "old fields fit", held.most);
    write_memory(board.memory);
    write_script(plate.address, said, held.number);
}

static void note(uint8_t code) {
    check(qs_fault(board.image, sizeof board.image, code) == 0, "a fault code is noted", code);
}

static uint64_t board_replies(uint64_t result) {
    check(!QS_IS_REFUSED(result), "our board refuses nothing", QS_REPLY(result));
    return QS_IS_REFUSED(result) ? 0 : QS_REPLY(result);
}

/* 01, demand 2: sent without a gap. */
static size_t exchange(const uint8_t *request, size_t length, uint8_t *reply) {
    uint32_t pause = board.plate.pause * board.plate.ticks;
    uint64_t image = sizeof board.image, memory = QS_MEMORY_LENGTH(board.plate.total), room = sizeof board.room;
    for (size_t i = 0; i < length; i++) {
        board.tick += below(pause);
        uint64_t early = board_replies(qs_character(board.image, image, board.tick, request[i], 0, board.memory, memory, board.room, room));
        check(early == 0, "no reply before the request is over", i);
    }
    board.tick += pause;
    size_t n = board_replies(qs_poll(board.image, image, board.tick, board.memory, memory, board.room, room));
    memcpy(reply, board.room, n);
    return n;
}

/* Memory is looked at after each request. */
static size_t board_answers(struct step s, const uint8_t *request, size_t length, uint8_t *reply) {
    size_t n = exchange(request, length, reply);
    if (n != 0 && (reply[1] & 0x7F) != QS_READ_STATUS)
        hold(s);
    check(holds_exactly(), "what our board holds after a request", s.stage);
    return n;
}

/* ---- a board of another maker that takes everything ----------------------------------------------------------------------------------------------------- */

static uint8_t last_stored[LARGEST_FIELD];

/* The data of its reply: it tells the script's number of fields and their statuses, and reads back what was stored last. */
static size_t other_data(struct step s, const uint8_t *data, uint8_t *reply) {
    switch (s.stage) {
    case QP_COUNT: return put(reply, (uint8_t[]){0, (uint8_t)script.present}, 2);
    case QP_LOOK: return put(reply, (uint8_t[]){data[0], script.statuses[s.field]}, 2);
    case QP_STORE: return put(reply, data, 3);
    case QP_READ: return put(reply, data, 3) + put(reply + 3, last_stored, data[2]);
    default: return put(reply, data, 2);
    }
}

/* A broadcast it answers as 5Fh. */
static size_t other_answers(struct step s, const uint8_t *request, size_t length, uint8_t *reply) {
    if (s.stage == QP_STORE)
        memcpy(last_stored, request + 6, length - 7);
    reply[0] = request[0] == 0xFF ? 0x5F : request[0];
    reply[1] = request[1];
    return seal(reply, 2 + other_data(s, request + 2, reply + 2));
}

/* ---- a reply that is spoiled ---------------------------------------------------------------------------------------------------------------------------- */

/* So many bytes of it are left, or a bit is flipped and the checksum is wrong. The others have a right one: a byte is another, a bit is, it warns, it is so
 * many bytes too long or too short, it is there twice, or another reply instead of it. */
enum how { NOTHING, CUT, BIT, BYTE, FLIP, WARN, LONGER, SHORTER, TWICE, INSTEAD };

struct spoiling {
    enum how how;
    uint8_t place, value; /* CUT, LONGER and SHORTER have their number in place */
    const char *instead;  /* without the checksum */
};

/* One or two things that are done to a reply, and why the request then fails. */
struct spoil {
    const char *name;
    struct spoiling first, then;
    uint8_t why, number;
};

/* The n bytes of a reply without their checksum, with this byte at a place. */
static size_t with_byte(uint8_t *reply, size_t n, uint8_t place, uint8_t value) {
    reply[place] = value;
    return n;
}

static size_t with_more(uint8_t *reply, size_t n, uint8_t more, uint8_t value) {
    memset(reply + n, value, more);
    return n + more;
}

static size_t spoiled_once(struct spoiling s, uint8_t *reply, size_t n) {
    size_t body = n - 1;
    switch (s.how) {
    case CUT: return s.place;
    case BIT: return with_byte(reply, n, s.place, reply[s.place] ^ s.value);
    case BYTE: return seal(reply, with_byte(reply, body, s.place, s.value));
    case FLIP: return seal(reply, with_byte(reply, body, s.place, reply[s.place] ^ s.value));
    case WARN: return seal(reply, with_byte(reply, body, 1, reply[1] | QS_WARNING_BIT));
    case LONGER: return seal(reply, with_more(reply, body, s.place, s.value));
    case SHORTER: return seal(reply, body - s.place);
    case TWICE: return n + put(reply + n, reply, n);
    default: return sealed(s.instead, reply);
    }
}

static size_t spoiled(const struct spoil *s, uint8_t *reply, size_t n) {
    n = spoiled_once(s->first, reply, n);
    return s->then.how == NOTHING ? n : spoiled_once(s->then, reply, n);
}

/* ---- a run -------------------------------------------------------------------------------------------------------------------------------------------- */

typedef size_t answerer(struct step s, const uint8_t *request, size_t length, uint8_t *reply);

/* Where a run ends: after so many requests, with this number and this progress. */
struct end {
    unsigned requests;
    uint64_t run, progress;
};

static struct end done(void) {
    return (struct end){script.length, run_at(script.length), progress_at(script.length)};
}

static struct end failed(unsigned answered, unsigned why, unsigned number) {
    return (struct end){answered + 1, because(run_at(answered), why, number), progress_at(answered)};
}

/* The request is the script's, asked for once, again, and with a longer buffer. It is left in a copy. */
static size_t asks(uint64_t run, unsigned answered, uint8_t *request) {
    uint8_t expected[QP_REQUEST_BUFFER];
    size_t n = request_of(script.steps[answered], expected);
    for (uint64_t more = 0; more < 3; more++) {
        check(next_with(run, QP_REQUEST_BUFFER + more / 2 * SPARE) == n, "a request's length", answered);
        check(memcmp(lent.buffer, expected, n) == 0, "a request", answered);
    }
    check(next_with(run, QP_REQUEST_BUFFER - 1) == QP_R4 && next_with(run, 0) == QP_R4, "a buffer too short", answered);
    memcpy(request, expected, n);
    return n;
}

/* A run that has ended stays as it is, and nothing is sent any more. */
static void is_over(struct end end, const uint8_t *reply, size_t n, const char *name, unsigned long number) {
    check(next(end.run) == 0 && next_with(end.run, QP_REQUEST_BUFFER + SPARE) == 0, name, number);
    check(next_with(end.run, QP_REQUEST_BUFFER - 1) == QP_R4, name, number);
    check(heard(end.run, SILENCE, 0) == end.run && heard(end.run, reply, n) == end.run, name, number);
    check(progress(end.run) == end.progress, name, number);
    check(QP_IS_DONE(end.run) != QP_HAS_FAILED(end.run) && !QP_IS_REFUSED(end.run), name, number);
}

enum { REPLY_PLACES = 1024 };

/* The reply to one step, and what is done to it. */
struct noise {
    const struct spoil *spoil;
    unsigned step;
};

static const struct noise NO_NOISE;

/* From the start to this end, all replies as the answerer gives them but for the noise. */
static void ends_in(struct end end, answerer *answers, struct noise noise, const char *name, unsigned long number) {
    uint8_t request[QP_REQUEST_BUFFER], good[REPLY_PLACES], reply[REPLY_PLACES];
    size_t good_length = 0;
    uint64_t run = start(script.address);
    for (unsigned i = 0; i < end.requests; i++) {
        check(run == run_at(i) && progress(run) == progress_at(i), name, number);
        size_t length = asks(run, i, request);
        good_length = answers(script.steps[i], request, length, good);
        memcpy(reply, good, good_length);
        size_t replied = noise.spoil != NULL && i == noise.step ? spoiled(noise.spoil, reply, good_length) : good_length;
        run = heard(run, reply, replied);
    }
    check(run == end.run, name, number);
    is_over(end, good, good_length, name, number);
}

/* ---- by hand -------------------------------------------------------------------------------------------------------------------------------------------- */

static const struct plate AT_THREE = {8, 24, 3, 4, 55};

/* Each request of a run, and its reply, without their checksums. The codes are 11h to 44h; two blocks of Code0 and a read-only one that wants Code2 are there;
 * wanted are a read-only block that wants Code1, and two blocks whose changes want Code3. */
static const struct {
    const char *request, *reply;
} BY_HAND[] = {
    {"43 4E", "43 4E 05 02"},
    {"43 4C 01", "43 4C 01 A8"},
    {"43 4D 01 28 33", "43 4D 01 28"},
    {"43 4C 00", "43 4C 00 C1"},
    {"43 4D 00 41 11", "43 4D 00 41"},
    {"43 4D 00 D8 22", "43 4D 00 D8"},
    {"43 4B 00 00 10 22 01*16", "43 4B 00 00 10"},
    {"43 4A 00 00 10 22", "43 4A 00 00 10 01*16"},
    {"43 4D 00 98 22", "43 4D 00 98"},
    {"43 4D 01 F1 44", "43 4D 01 F1"},
    {"43 4B 01 00 20 44 FE*32", "43 4B 01 00 20"},
    {"43 4A 01 00 20 44", "43 4A 01 00 20 FE*32"},
};

enum { OLD_FIELDS = 2 };
#define OLD_BY_HAND "C1 A8"
#define WANTED_BY_HAND "98 F1"

static void by_hand(void) {
    want(WANTED_BY_HAND);
    old_board(AT_THREE, OLD_BY_HAND);
}

static void test_by_hand(void) {
    want(WANTED_BY_HAND);
    memset(wish.fields[0].bytes, 0x01, LARGEST_FIELD);
    memset(wish.fields[1].bytes, 0xFE, LARGEST_FIELD);
    lend_wish();
    uint64_t run = start(3);
    for (unsigned i = 0; i < COUNT(BY_HAND); i++) {
        uint8_t expected[QP_REQUEST_BUFFER], reply[QP_REPLY_ROOM];
        size_t n = sealed(BY_HAND[i].request, expected), replied = sealed(BY_HAND[i].reply, reply);
        check(next(run) == n && memcmp(lent.buffer, expected, n) == 0, "a request by hand", i);
        check(QP_ANSWERED(progress(run)) == i && QP_IN_ALL(progress(run)) == COUNT(BY_HAND) - (i == 0 ? 2 * OLD_FIELDS : 0), "so many of so many, by hand", i);
        run = heard(run, reply, replied);
    }
    check(QP_IS_DONE(run) && !QP_HAS_FAILED(run) && QP_PRESENT(run) == OLD_FIELDS && QP_ADDRESS(run) == 3, "done by hand", 0);
    check(progress(run) == ((uint64_t)COUNT(BY_HAND) << 32 | COUNT(BY_HAND)), "all of all, by hand", 0);
}

/* ---- runs against our board ----------------------------------------------------------------------------------------------------------------------------- */

/* The plate's blocks, the fields that are there and those that are wanted; last is the field whose creation is answered with 10h, NONE if all fit. */
enum { NONE = -1 };

static const struct {
    const char *name;
    uint32_t total;
    const char *present, *wanted;
    int last;
} FITTING[] = {
    {"T = 1, nothing wanted on an empty board", 1, "", "", NONE},
    {"T = 1, nothing wanted, one there", 1, "F8", "", NONE},
    {"T = 1, its block", 1, "", "80", NONE},
    {"T = 1, its block for another", 1, "98", "F8", NONE},
    {"T = 1, one too few: two blocks", 1, "80", "C1", 0},
    {"T = 1, one too few: two fields", 1, "", "80 80", 1},
    {"T = 1, eight blocks", 1, "C0", "C7 C0", 0},
    {"T = 8, one field of all", 8, "", "C7", NONE},
    {"T = 8, one for one", 8, "B7", "8F", NONE},
    {"T = 8, eight fields", 8, "87", "80*8", NONE},
    {"T = 8, one field for eight", 8, "F8*8", "C7", NONE},
    {"T = 8, three and five", 8, "C1 A8 90", "BA DC", NONE},
    {"T = 8, one too few: eight and one", 8, "C7", "C7 80", 1},
    {"T = 8, one too few: nine fields", 8, "C0*8", "80*9", 8},
    {"T = 8, one too few: three and six", 8, "", "BA DD", 1},
    {"T = 8, one too few, and more behind", 8, "C0", "C3 C4 C0", 1},
    {"T = 112, 14 of eight", 112, "", "87*14", NONE},
    {"T = 112, 112 of one", 112, "CF*14", "80*112", NONE},
    {"T = 112, 112 of one are there", 112, "B8*112", "C6*16", NONE},
    {"T = 112, all sizes", 112, "C0 C1 C2 C3 C4 C5 C6 C7", "80 91 A2 B3 C4 D5 E6 F7 88 99 AA BB CC DD EE FF C7*5", NONE},
    {"T = 112, one too few: 14 of eight and one", 112, "C7*14", "C7*14 C0", 14},
    {"T = 112, one too few: 113 of one", 112, "", "80*113", 112},
    {"T = 112, one too few: 15 of seven and one of eight", 112, "80", "C6*15 C7", 15},
};

static unsigned step_of(uint8_t stage, unsigned field) {
    for (unsigned i = 0; i < script.length; i++)
        if (script.steps[i].stage == stage && script.steps[i].field == field)
            return i;
    check(false, "the script has no such step", stage);
    return 0;
}

/* Each at another address. What stands in the image is left as it was: codes, counter, address, offset, waiting codes, lock. */
static void test_fitting(void) {
    for (size_t i = 0; i < COUNT(FITTING); i++) {
        struct plate plate = {FITTING[i].total, 24, (uint32_t)i, 4, 55};
        uint8_t image[QS_IMAGE_KEPT];
        want(FITTING[i].wanted);
        old_board(plate, FITTING[i].present);
        memcpy(image, board.image, sizeof image);
        int last = FITTING[i].last;
        struct end end = last == NONE ? done() : failed(step_of(QP_CREATE, (unsigned)last), QP_WHY_ERROR, QS_ERROR_NO_ROOM);
        ends_in(end, board_answers, NO_NOISE, FITTING[i].name, i);
        check(memcmp(board.image, image, sizeof image) == 0, FITTING[i].name, i);
    }
}

/* Statuses of fields that have at most so many blocks together. */
static void throw_statuses(unsigned blocks, char *said) {
    *said = 0;
    while (blocks > 0 && !once_in(12)) {
        uint8_t status = (uint8_t)(dice() | QS_STATUS_EXISTS);
        if (blocks_of(status) > blocks)
            status &= (uint8_t)~QS_STATUS_BLOCKS;
        blocks -= blocks_of(status);
        said += sprintf(said, "%02X ", status);
    }
}

static struct plate thrown_plate(void) {
    struct plate plate;
    plate.total = once_in(4) ? LARGEST_TOTAL : 1 + below(LARGEST_TOTAL);
    plate.bits = 1 + below(32);
    plate.address = below(32);
    plate.ticks = 1u << below(7);
    plate.pause = once_in(2) ? 22 : 55;
    return plate;
}

/* Any board of ours with any sound memory, any codes and any wish that fits, locked or not, whatever waits. */
static void test_thrown_runs(void) {
    enum { ROUNDS = 400 };
    for (unsigned long i = 0; i < ROUNDS; i++) {
        char present[3 * LARGEST_TOTAL + 1], wanted[3 * LARGEST_TOTAL + 1];
        struct plate plate = thrown_plate();
        throw_statuses(plate.total, present);
        throw_statuses(plate.total, wanted);
        want(wanted);
        for (int k = 0; k < 4; k++)
            wish.codes[k] = (uint8_t)dice();
        lend_wish();
        old_board(plate, present);
        for (uint32_t k = below(6); k > 0; k--)
            note((uint8_t)dice());
        if (once_in(3))
            script.address = QP_BROADCAST;
        ends_in(done(), board_answers, NO_NOISE, "a thrown run", i);
    }
}

/* 02, "the tape's codes in force": with one of them another, the first request that carries it is answered with 0Fh. */
static const struct {
    unsigned code;
    uint8_t stage, field;
} NOT_IN_FORCE[] = {{0, QP_REMOVE, 0}, {1, QP_CREATE, 0}, {2, QP_REMOVE, 1}, {3, QP_CREATE, 1}};

static void test_codes_not_in_force(void) {
    for (size_t i = 0; i < COUNT(NOT_IN_FORCE); i++) {
        by_hand();
        board.image[QS_IMAGE_CODES + NOT_IN_FORCE[i].code] ^= 0x80;
        unsigned step = step_of(NOT_IN_FORCE[i].stage, NOT_IN_FORCE[i].field);
        ends_in(failed(step, QP_WHY_ERROR, QS_ERROR_WRONG_CODE), board_answers, NO_NOISE, "a code that is not in force", i);
        want("C0 D0 E0 F0");
        old_board(AT_THREE, "");
        board.image[QS_IMAGE_CODES + i] ^= 0x01;
        ends_in(failed(step_of(QP_CREATE, (unsigned)i), QP_WHY_ERROR, QS_ERROR_WRONG_CODE), board_answers, NO_NOISE, "a new field's code", i);
    }
}

/* "a warning does not stop the run", however many wait; the codes still wait afterwards. With a warning an error is an error still. */
static void test_warnings(void) {
    for (uint8_t waiting = 1; waiting <= 4; waiting++) {
        by_hand();
        for (uint8_t code = 1; code <= waiting; code++)
            note((uint8_t)(0x30 + code));
        ends_in(done(), board_answers, NO_NOISE, "warnings all along", waiting);
        check(board.image[QS_IMAGE_WAITING] == 0x31 && board.image[QS_IMAGE_WAITING + waiting - 1] == 0x30 + waiting, "they wait still", waiting);
        by_hand();
        note(QS_FAULT_LOCKS_A);
        note(waiting);
        board.image[QS_IMAGE_CODES] ^= 0xFF;
        ends_in(failed(step_of(QP_REMOVE, 0), QP_WHY_ERROR, QS_ERROR_WRONG_CODE), board_answers, NO_NOISE, "an error with a warning", waiting);
    }
}

/* An unsound table is answered with 03h at once, and no board at that address with silence. */
static void test_board_without_answers(void) {
    by_hand();
    board.memory[board.plate.total * QS_BLOCK + OLD_FIELDS] = 0x40;
    uint8_t reply[QS_REPLY_ROOM];
    uint64_t run = start(3);
    size_t n = exchange(lent.buffer, next(run), reply);
    check(heard(run, reply, n) == because(run, QP_WHY_ERROR, QS_ERROR_TABLE_UNSOUND), "an unsound table", 0);
    by_hand();
    script.address = 4;
    ends_in(failed(0, QP_WHY_JUDGEMENT, 1), board_answers, NO_NOISE, "no board of that address", 0);
}

/* A run that is broken off behind any request: a new one deletes what it left, and ends in done. */
static void test_broken_off(void) {
    static const struct spoil silence = {.first = {.how = CUT}};
    for (unsigned i = 0; i < COUNT(BY_HAND); i++) {
        uint8_t statuses[LARGEST_TOTAL];
        by_hand();
        ends_in(failed(i, QP_WHY_JUDGEMENT, 1), board_answers, (struct noise){&silence, i}, "broken off", i);
        for (unsigned k = 0; k < held.number; k++)
            statuses[k] = held.fields[k].status;
        write_script(3, statuses, held.number);
        ends_in(done(), board_answers, NO_NOISE, "started again", i);
        ends_in(done(), other_answers, NO_NOISE, "for another board", i);
    }
}

/* ---- replies that are spoiled, at every step ------------------------------------------------------------------------------------------------------------ */

#define NO_MORE {.how = NOTHING}
#define JUDGED(number) QP_WHY_JUDGEMENT, number
#define ERROR(number) QP_WHY_ERROR, number

/* The board has address 3. 01, "The bench": B1 to B6 in this order, whatever else is wrong. */
static const struct spoil SPOILS[] = {
    {"silence", {CUT, 0, 0, ""}, NO_MORE, JUDGED(1)},
    {"one byte of it", {CUT, 1, 0, ""}, NO_MORE, JUDGED(1)},
    {"two bytes of it", {CUT, 2, 0, ""}, NO_MORE, JUDGED(1)},
    {"three bytes of it", {CUT, 3, 0, ""}, NO_MORE, JUDGED(2)},
    {"a bit of the address", {BIT, 0, 0x01, ""}, NO_MORE, JUDGED(2)},
    {"the warning bit, unsealed", {BIT, 1, 0x80, ""}, NO_MORE, JUDGED(2)},
    {"a bit of the data", {BIT, 2, 0x10, ""}, NO_MORE, JUDGED(2)},
    {"a bit of an error reply", {.how = INSTEAD, .instead = "43 50 0F"}, {BIT, 2, 0x01, ""}, JUDGED(2)},
    {"another address and a bit", {BYTE, 0, 0x42, ""}, {BIT, 1, 0x01, ""}, JUDGED(2)},
    {"address 40h", {BYTE, 0, 0x40, ""}, NO_MORE, JUDGED(3)},
    {"address 42h", {BYTE, 0, 0x42, ""}, NO_MORE, JUDGED(3)},
    {"address 03h", {BYTE, 0, 0x03, ""}, NO_MORE, JUDGED(3)},
    {"address 63h", {BYTE, 0, 0x63, ""}, NO_MORE, JUDGED(3)},
    {"address C3h", {BYTE, 0, 0xC3, ""}, NO_MORE, JUDGED(3)},
    {"address FFh", {BYTE, 0, 0xFF, ""}, NO_MORE, JUDGED(3)},
    {"another board's error", {.how = INSTEAD, .instead = "44 50 0F"}, NO_MORE, JUDGED(3)},
    {"another board's reply with a warning", {.how = WARN}, {BYTE, 0, 0x44, ""}, JUDGED(3)},
    {"another address and another command", {BYTE, 0, 0x42, ""}, {BYTE, 1, 0x46, ""}, JUDGED(3)},
    {"command 42h", {BYTE, 1, 0x42, ""}, NO_MORE, JUDGED(4)},
    {"command 4Fh", {BYTE, 1, 0x4F, ""}, NO_MORE, JUDGED(4)},
    {"command 53h", {BYTE, 1, 0x53, ""}, NO_MORE, JUDGED(4)},
    {"command CFh", {BYTE, 1, 0xCF, ""}, NO_MORE, JUDGED(4)},
    {"command 0Eh", {BYTE, 1, 0x0E, ""}, NO_MORE, JUDGED(4)},
    {"command 51h", {BYTE, 1, 0x51, ""}, NO_MORE, JUDGED(4)},
    {"another command, too long", {BYTE, 1, 0x46, ""}, {LONGER, 1, 0x55, ""}, JUDGED(4)},
    {"a byte too long", {LONGER, 1, 0x55, ""}, NO_MORE, JUDGED(5)},
    {"a zero behind it", {LONGER, 1, 0, ""}, NO_MORE, JUDGED(5)},
    {"134 bytes too long", {LONGER, 134, 0xAA, ""}, NO_MORE, JUDGED(5)},
    {"255 bytes too long", {LONGER, 255, 0xAA, ""}, NO_MORE, JUDGED(5)},
    {"it twice", {.how = TWICE}, NO_MORE, JUDGED(5)},
    {"a byte too short", {SHORTER, 1, 0, ""}, NO_MORE, JUDGED(5)},
    {"two bytes too short", {SHORTER, 2, 0, ""}, NO_MORE, JUDGED(5)},
    {"a byte too short, with a warning", {.how = WARN}, {SHORTER, 1, 0, ""}, JUDGED(5)},
    {"too long, and another field", {FLIP, 2, 0x01, ""}, {LONGER, 1, 0x55, ""}, JUDGED(5)},
    {"an error without a code", {.how = INSTEAD, .instead = "43 50"}, NO_MORE, JUDGED(5)},
    {"an error of two codes", {.how = INSTEAD, .instead = "43 D0 0F 0F"}, NO_MORE, JUDGED(5)},
    {"error 00h", {.how = INSTEAD, .instead = "43 50 00"}, NO_MORE, ERROR(0x00)},
    {"error 03h", {.how = INSTEAD, .instead = "43 50 03"}, NO_MORE, ERROR(0x03)},
    {"error 09h", {.how = INSTEAD, .instead = "43 50 09"}, NO_MORE, ERROR(0x09)},
    {"error 0Fh", {.how = INSTEAD, .instead = "43 50 0F"}, NO_MORE, ERROR(0x0F)},
    {"error 10h", {.how = INSTEAD, .instead = "43 50 10"}, NO_MORE, ERROR(0x10)},
    {"error FFh", {.how = INSTEAD, .instead = "43 50 FF"}, NO_MORE, ERROR(0xFF)},
    {"error 00h with a warning", {.how = INSTEAD, .instead = "43 D0 00"}, NO_MORE, ERROR(0x00)},
    {"error 0Fh with a warning", {.how = INSTEAD, .instead = "43 D0 0F"}, NO_MORE, ERROR(0x0F)},
    {"error FFh with a warning", {.how = INSTEAD, .instead = "43 D0 FF"}, NO_MORE, ERROR(0xFF)},
};

static void test_spoiled_replies(void) {
    for (size_t i = 0; i < COUNT(SPOILS) * COUNT(BY_HAND); i++) {
        const struct spoil *spoil = &SPOILS[i % COUNT(SPOILS)];
        unsigned step = (unsigned)(i / COUNT(SPOILS));
        by_hand();
        ends_in(failed(step, spoil->why, spoil->number), board_answers, (struct noise){spoil, step}, spoil->name, step);
    }
}

/* A warning at any step, and any number of free blocks: it goes on, and ends in done. */
static void test_harmless_replies(void) {
    static const struct spoil warning = {.first = {.how = WARN}};
    for (unsigned step = 0; step < COUNT(BY_HAND); step++) {
        by_hand();
        ends_in(done(), board_answers, (struct noise){&warning, step}, "a warning at one step", step);
    }
    for (unsigned free = 0; free < 256; free++) {
        struct spoil told = {.first = {BYTE, 2, (uint8_t)free, ""}};
        by_hand();
        ends_in(done(), board_answers, (struct noise){&told, 0}, "free blocks are not looked at", free);
    }
}

/* The data bytes of a good reply. */
static unsigned data_length(struct step s) {
    unsigned read = s.stage == QP_READ ? size_of(wish.fields[s.field].status) : 0;
    return s.stage == QP_STORE || s.stage == QP_READ ? 3 + read : 2;
}

enum { FIRST_DATA = 2, FIRST_READ = 5 };

/* Each bit of each data byte told otherwise, with and without a warning: field, offset, count and status are the request's (B6), and what is read back is what
 * was stored. What 4Eh and 4Ch tell is believed. */
static void test_other_data(void) {
    for (unsigned step = 0; step < COUNT(BY_HAND); step++) {
        by_hand();
        struct step s = script.steps[step];
        for (unsigned i = 0; i < 16 * data_length(s); i++) {
            uint8_t place = (uint8_t)(FIRST_DATA + i / 16);
            struct spoil spoil = {.first = {FLIP, place, (uint8_t)(1u << i / 2 % 8), ""}, .then = {.how = i % 2 ? WARN : NOTHING}};
            if (s.stage == QP_COUNT || (s.stage == QP_LOOK && place != FIRST_DATA))
                continue;
            by_hand();
            struct end end = s.stage == QP_READ && place >= FIRST_READ ? failed(step, QP_WHY_DIFFERS, 0) : failed(step, QP_WHY_JUDGEMENT, 6);
            ends_in(end, board_answers, (struct noise){&spoil, step}, "another bit of a reply", step * 1000 + i);
        }
    }
}

/* Two faults of a read-back: the judgement comes first. */
static void test_read_back_order(void) {
    static const struct spoil both[] = {
        {"another field and another byte", {FLIP, 2, 1, ""}, {FLIP, 5, 1, ""}, JUDGED(6)},
        {"another byte, too long", {FLIP, 5, 1, ""}, {LONGER, 1, 0, ""}, JUDGED(5)},
        {"another byte, from another board", {FLIP, 5, 1, ""}, {BYTE, 0, 0x44, ""}, JUDGED(3)},
        {"another byte, and a bit", {FLIP, 5, 1, ""}, {BIT, 6, 1, ""}, JUDGED(2)},
    };
    for (unsigned i = 0; i < COUNT(both); i++) {
        by_hand();
        unsigned step = step_of(QP_READ, 1);
        ends_in(failed(step, both[i].why, both[i].number), board_answers, (struct noise){&both[i], step}, both[i].name, i);
    }
}

/* ---- boards of other makers ----------------------------------------------------------------------------------------------------------------------------- */

/* Any number of fields, each of any status: at most 255 are deleted, then the tape's come. */
static void test_other_boards(void) {
    uint8_t statuses[255];
    for (unsigned present = 0; present < 256; present++) {
        want(present % 2 ? "" : "98 F1 C7");
        for (unsigned k = 0; k < present; k++)
            statuses[k] = (uint8_t)(k * 7 + present);
        write_script(present % 32, statuses, present);
        ends_in(done(), other_answers, NO_NOISE, "a board that tells so many fields", present);
    }
    for (unsigned status = 0; status < 256; status++) {
        want("");
        statuses[0] = (uint8_t)status;
        write_script(QP_BROADCAST, statuses, 1);
        ends_in(done(), other_answers, NO_NOISE, "a board that tells this status", status);
    }
}

static const struct {
    const char *wanted;
    unsigned present, requests;
} MANY[] = {
    {"C0*256", 0, 1 + 3 * 256},
    {"80*256", 0, 1 + 4 * 256},
    {"FF*256", 1, 1 + 2 + 3 * 256},
    {"80*255 C7", 0, 1 + 4 * 255 + 3},
    {"87*256", 255, 1 + 2 * 255 + 4 * 256},
};

/* 256 fields have numbers, and the last one's is FFh: whether a board has room for it is the board's to say. */
static void test_many_fields(void) {
    static const uint8_t statuses[255];
    for (size_t i = 0; i < COUNT(MANY); i++) {
        want(MANY[i].wanted);
        write_script(31, statuses, MANY[i].present);
        check(script.length == MANY[i].requests, "so many requests", i);
        is_taken(MANY[i].wanted, i);
        ends_in(done(), other_answers, NO_NOISE, MANY[i].wanted, i);
    }
}

/* A 257th has none: a bad record, whatever it is and whatever was of another size before. */
static void test_a_field_too_many(void) {
    static const char *const behind[] = {ONE_BLOCK, ONE_BLOCK ONE_BLOCK, "12 00 21 00 C0 5A*15", CODES, "00", "13 00 21 00 40 5A*16"};
    const size_t end = 8 + MOST_FIELDS * 21;
    want("80*257");
    all_refuse(at_place(QP_BAD_RECORD, end), "257 fields", MOST_FIELDS + 1);
    for (size_t i = 0; i < COUNT(behind); i++) {
        want("C0*256");
        made.length += bytes_of(behind[i], made.bytes + made.length);
        lend_tape();
        all_refuse(at_place(QP_BAD_RECORD, end), "a 257th record behind the codes", i);
        made.bytes[12] = 0xC1;
        lend_tape();
        all_refuse(at_place(QP_BAD_RECORD, end), "and the first of another size", i);
    }
    for (unsigned i = 0; i < MOST_FIELDS; i++) {
        want("C0*256");
        made.bytes[8 + i * 21 + 4] = 0xC7;
        is_judged("one of 256 has another size", i);
        check(check_tape() == at_place(QP_WRONG_SIZE, 8 + i * 21), "one of 256 has another size", i);
    }
}

/* ---- addresses ------------------------------------------------------------------------------------------------------------------------------------------ */

static const uint32_t NO_ADDRESSES[] = {256, 256 + 5, 256 + 255, 65536, 65536 + 5, 1u << 31, UINT32_MAX};

static void test_addresses(void) {
    want("C0");
    for (uint32_t address = 0; address < 256; address++) {
        bool taken = address < 32 || address == QP_BROADCAST;
        check(start(address) == (taken ? (uint64_t)address << 48 | QP_COUNT : QP_R5), "an address", address);
    }
    for (size_t i = 0; i < COUNT(NO_ADDRESSES); i++)
        check(start(NO_ADDRESSES[i]) == QP_R5, "an address over 255", NO_ADDRESSES[i]);
    for (uint32_t address = 0; address < 32; address++) {
        struct plate plate = {8, 24, address, 4, 55};
        want("80 D1");
        old_board(plate, "A8 C0");
        ends_in(done(), board_answers, NO_NOISE, "every address", address);
        old_board(plate, "A8 C0");
        script.address = QP_BROADCAST;
        ends_in(done(), board_answers, NO_NOISE, "a broadcast to every address", address);
    }
}

/* To a broadcast any board may answer, and no other byte. */
static void test_broadcast_replies(void) {
    want("80 D1");
    write_script(QP_BROADCAST, SILENCE, 0);
    for (unsigned step = 0; step < script.length; step++) {
        for (unsigned address = 0; address < 256; address++) {
            struct spoil from = {.first = {BYTE, 0, (uint8_t)address, ""}};
            bool taken = address >= 0x40 && address <= 0x5F;
            ends_in(taken ? done() : failed(step, QP_WHY_JUDGEMENT, 3), other_answers, (struct noise){&from, step}, "a broadcast's reply", address);
        }
    }
}

/* ---- numbers that are no run ---------------------------------------------------------------------------------------------------------------------------- */

/* The run that a number would be. */
#define RUN(address, present, number, why, status, field, stage)                                                                                            \
    ((uint64_t)(address) << 48 | (uint64_t)(present) << 40 | (uint64_t)(number) << 32 | (uint64_t)(why) << 24 | (uint64_t)(status) << 16 |                     \
     (uint64_t)(field) << 8 | (uint64_t)(stage))

/* With the tape of WANTED_BY_HAND: field 0 is read-only, field 1 is not. */
static const struct {
    const char *name;
    uint64_t number;
    bool is_run;
} NUMBERS[] = {
    {"0", 0, false},
    {"all ones", UINT64_MAX, false},
    {"4Eh is due", RUN(0, 0, 0, 0, 0, 0, QP_COUNT), true},
    {".. of address 31", RUN(31, 0, 0, 0, 0, 0, QP_COUNT), true},
    {".. of address 32", RUN(32, 0, 0, 0, 0, 0, QP_COUNT), false},
    {".. of address 254", RUN(254, 0, 0, 0, 0, 0, QP_COUNT), false},
    {".. of all boards", RUN(QP_BROADCAST, 0, 0, 0, 0, 0, QP_COUNT), true},
    {".. and the highest byte is not 0", RUN(256, 0, 0, 0, 0, 0, QP_COUNT), false},
    {".. and fields are told already", RUN(0, 1, 0, 0, 0, 0, QP_COUNT), false},
    {".. of field 1", RUN(0, 0, 0, 0, 0, 1, QP_COUNT), false},
    {".. with a status", RUN(0, 0, 0, 0, 0x80, 0, QP_COUNT), false},
    {".. with a number and no why", RUN(0, 0, 1, 0, 0, 0, QP_COUNT), false},
    {"4Ch of the last field present", RUN(0, 5, 0, 0, 0, 4, QP_LOOK), true},
    {"4Ch of the first", RUN(0, 5, 0, 0, 0, 0, QP_LOOK), true},
    {"4Ch of a field that is not present", RUN(0, 5, 0, 0, 0, 5, QP_LOOK), false},
    {"4Ch and none is present", RUN(0, 0, 0, 0, 0, 0, QP_LOOK), false},
    {"4Ch with a status", RUN(0, 5, 0, 0, 0xC0, 4, QP_LOOK), false},
    {"4Ch of field 254", RUN(0, 255, 0, 0, 0, 254, QP_LOOK), true},
    {"4Ch of field 255", RUN(0, 255, 0, 0, 0, 255, QP_LOOK), false},
    {"a deletion", RUN(0, 5, 0, 0, 0xC0, 4, QP_REMOVE), true},
    {"a deletion by status 00h", RUN(0, 5, 0, 0, 0, 4, QP_REMOVE), true},
    {"a deletion of what is not present", RUN(0, 5, 0, 0, 0xC0, 5, QP_REMOVE), false},
    {"a creation", RUN(0, 5, 0, 0, 0, 1, QP_CREATE), true},
    {"a creation of what is not wanted", RUN(0, 5, 0, 0, 0, 2, QP_CREATE), false},
    {"a creation with a status", RUN(0, 5, 0, 0, 0x80, 1, QP_CREATE), false},
    {"a store", RUN(0, 0, 0, 0, 0, 1, QP_STORE), true},
    {"a store of what is not wanted", RUN(0, 0, 0, 0, 0, 2, QP_STORE), false},
    {"a read-back", RUN(0, 255, 0, 0, 0, 1, QP_READ), true},
    {"a read-back of what is not wanted", RUN(0, 255, 0, 0, 0, 255, QP_READ), false},
    {"a lock of the read-only field", RUN(0, 0, 0, 0, 0, 0, QP_LOCK), true},
    {"a lock of the other", RUN(0, 0, 0, 0, 0, 1, QP_LOCK), false},
    {"a lock of what is not wanted", RUN(0, 0, 0, 0, 0, 2, QP_LOCK), false},
    {"done", RUN(7, 255, 0, 0, 0, 0, QP_DONE), true},
    {"done of a field", RUN(7, 255, 0, 0, 0, 1, QP_DONE), false},
    {"done with a status", RUN(7, 255, 0, 0, 1, 0, QP_DONE), false},
    {"done and failed", RUN(7, 255, 0, QP_WHY_ERROR, 0, 0, QP_DONE), false},
    {"done with a number", RUN(7, 255, 1, 0, 0, 0, QP_DONE), false},
    {"stage 9", RUN(7, 255, 0, 0, 0, 0, 9), false},
    {"failed by B1", RUN(0, 0, 1, QP_WHY_JUDGEMENT, 0, 0, QP_COUNT), true},
    {"failed by B6", RUN(0, 5, 6, QP_WHY_JUDGEMENT, 0xFF, 4, QP_REMOVE), true},
    {"failed by B7", RUN(0, 5, 7, QP_WHY_JUDGEMENT, 0xFF, 4, QP_REMOVE), false},
    {"failed by error 00h", RUN(0, 5, 0, QP_WHY_ERROR, 0, 1, QP_STORE), true},
    {"failed by error FFh", RUN(0, 5, 255, QP_WHY_ERROR, 0, 1, QP_STORE), true},
    {"failed by a difference", RUN(0, 5, 0, QP_WHY_DIFFERS, 0, 1, QP_READ), true},
    {"a difference with a number", RUN(0, 5, 1, QP_WHY_DIFFERS, 0, 1, QP_READ), false},
    {"a difference at a store", RUN(0, 5, 0, QP_WHY_DIFFERS, 0, 1, QP_STORE), false},
    {"a difference at a lock", RUN(0, 5, 0, QP_WHY_DIFFERS, 0, 0, QP_LOCK), false},
    {"failed for reason 4", RUN(0, 5, 0, 4, 0, 1, QP_READ), false},
    {"a refusal", QP_NO_RUN, false},
    {"a refusal with its place", (uint64_t)8 << 32 | QP_BAD_RECORD, false},
};

/* Whether a run of the wish could have this number, by a reading of its own. */
static bool names_a_step(unsigned stage, unsigned field, unsigned status, unsigned present) {
    switch (stage) {
    case QP_COUNT: return field == 0 && status == 0 && present == 0;
    case QP_LOOK: return field < present && status == 0;
    case QP_REMOVE: return field < present;
    case QP_CREATE: case QP_STORE: case QP_READ: return field < wish.number && status == 0;
    case QP_LOCK: return field < wish.number && status == 0 && is_read_only(wish.fields[field].status);
    default: return false;
    }
}

static bool may_fail(unsigned stage, unsigned why, unsigned number) {
    switch (why) {
    case 0: return number == 0;
    case QP_WHY_JUDGEMENT: return number <= 6;
    case QP_WHY_ERROR: return true;
    case QP_WHY_DIFFERS: return number == 0 && stage == QP_READ;
    default: return false;
    }
}

static bool is_run(uint64_t run) {
    unsigned stage = run & 0xFF, field = run >> 8 & 0xFF, status = run >> 16 & 0xFF, why = run >> 24 & 0xFF, number = run >> 32 & 0xFF;
    unsigned present = run >> 40 & 0xFF, address = (unsigned)(run >> 48);
    if (address > 31 && address != QP_BROADCAST)
        return false;
    if (stage == QP_DONE)
        return field == 0 && status == 0 && why == 0 && number == 0;
    return names_a_step(stage, field, status, present) && may_fail(stage, why, number);
}

/* All three calls take it or refuse it; a buffer too short comes after. */
static void is_taken_as_run(uint64_t run, bool taken, const char *name, unsigned long number) {
    bool over = QP_IS_DONE(run) || QP_HAS_FAILED(run);
    uint64_t asked = next(run), after = heard(run, SILENCE, 0), so_far = progress(run);
    if (!taken) {
        check(asked == QP_NO_RUN && after == QP_NO_RUN && so_far == QP_NO_RUN && next_with(run, 0) == QP_NO_RUN, name, number);
        return;
    }
    check(over ? asked == 0 : asked >= 3 && asked <= QP_REQUEST_BUFFER, name, number);
    check(after == (over ? run : because(run, QP_WHY_JUDGEMENT, 1)), name, number);
    check(QP_ANSWERED(so_far) < QP_IN_ALL(so_far) || (QP_IS_DONE(run) && QP_ANSWERED(so_far) == QP_IN_ALL(so_far)), name, number);
    check(next_with(run, QP_REQUEST_BUFFER - 1) == QP_R4, name, number);
}

static void test_numbers(void) {
    want(WANTED_BY_HAND);
    for (size_t i = 0; i < COUNT(NUMBERS); i++) {
        check(is_run(NUMBERS[i].number) == NUMBERS[i].is_run, NUMBERS[i].name, i);
        is_taken_as_run(NUMBERS[i].number, NUMBERS[i].is_run, NUMBERS[i].name, i);
    }
}

/* Each byte of a number with each value. */
static void bytes_of_number(uint64_t run, const char *name) {
    for (unsigned i = 0; i < 8 * 256; i++) {
        unsigned place = i / 256 * 8;
        uint64_t other = (run & ~((uint64_t)0xFF << place)) | (uint64_t)(i % 256) << place;
        is_taken_as_run(other, is_run(other), name, i);
    }
}

/* The runs by hand, not failed and failed, with their own tape, with one that has no field, and with one that has many. */
static void test_near_numbers(void) {
    static const char *const tapes[] = {WANTED_BY_HAND, "", "C0 80", "87 C0*30 80*30"};
    for (size_t t = 0; t < COUNT(tapes); t++) {
        for (unsigned i = 0; i <= COUNT(BY_HAND); i++) {
            by_hand();
            uint64_t run = run_at(i);
            want(tapes[t]);
            bytes_of_number(run, "a number beside a run");
            bytes_of_number(because(run, QP_WHY_JUDGEMENT, i % 7), "a number beside one failed by a judgement");
            bytes_of_number(because(run, QP_WHY_ERROR, i), "a number beside one failed by an error");
            bytes_of_number(because(run, QP_WHY_DIFFERS, 0), "a number beside one that differs");
        }
    }
}

/* Numbers of which some are runs: a limit for each byte, and now and then a 0. */
static uint64_t thrown_number(void) {
    static const uint32_t ends[] = {10, 64, 256, 4, 8, 64, 34};
    uint64_t run = 0;
    for (unsigned place = 0; place < COUNT(ends); place++) {
        uint64_t byte = below(ends[place]);
        run |= once_in(3) ? 0 : byte << 8 * place;
    }
    return run;
}

static void test_thrown_numbers(void) {
    enum { ROUNDS = 40000 };
    want("98 F1 C0*40");
    for (unsigned long i = 0; i < ROUNDS; i++) {
        uint64_t run = i % 8 == 0 ? dice() : thrown_number();
        is_taken_as_run(run, is_run(run), "a thrown number", i);
    }
}

/* ---- lengths of more than 32 bits, macros --------------------------------------------------------------------------------------------------------------- */

static const uint64_t FAR = (uint64_t)1 << 32;

/* A tape that is good but for 2^32 bytes behind it is bad there, and a buffer of more than 2^32 is long enough. */
static void test_long_lengths(void) {
    if (sizeof(size_t) < sizeof FAR)
        return;
    uint8_t *wide = mmap(NULL, (size_t)FAR + ROOM, PROT_READ | PROT_WRITE, MAP_PRIVATE | MAP_ANONYMOUS | MAP_NORESERVE, -1, 0);
    check(wide != MAP_FAILED, "2^32 bytes to lend", 0);
    if (wide == MAP_FAILED)
        return;
    want("C0");
    memcpy(wide, made.bytes, made.length);
    uint64_t length = FAR + made.length, refusal = at_place(QP_BAD_RECORD, made.length);
    check(qp_check(wide, length) == refusal && qp_start(0, wide, length) == refusal, "a long tape", 0);
    check(qp_next(QP_COUNT, wide, length, lent.buffer, QP_REQUEST_BUFFER) == refusal && qp_progress(QP_COUNT, wide, length) == refusal, "a long tape", 1);
    check(qp_heard(QP_COUNT, wide, length, SILENCE, 0) == refusal, "a long tape", 2);
    check(qp_next(QP_COUNT, tape(), made.length, wide, FAR + 1) == 3 && memcmp(wide, "\x40\x4E\x0E", 3) == 0, "a long buffer", 0);
    check(memcmp(wide + 3, made.bytes + 3, made.length - 3) == 0, "the rest of a long buffer", 0);
    munmap(wide, (size_t)FAR + ROOM);
}

static void test_macros(void) {
    uint64_t run = RUN(0x1F, 0xFE, 0x0F, QP_WHY_ERROR, 0xA8, 0xFD, QP_REMOVE), refusal = (uint64_t)0x12345678 << 32 | QP_WRONG_SIZE;
    check(QP_STAGE(run) == QP_REMOVE && QP_FIELD(run) == 0xFD && QP_STATUS(run) == 0xA8 && QP_WHY(run) == QP_WHY_ERROR, "parts of a run", 0);
    check(QP_WHY_NUMBER(run) == 0x0F && QP_PRESENT(run) == 0xFE && QP_ADDRESS(run) == 0x1F, "parts of a run", 1);
    check(QP_HAS_FAILED(run) && !QP_IS_DONE(run) && !QP_IS_REFUSED(run), "a failed run", 0);
    check(!QP_HAS_FAILED(QP_DONE) && QP_IS_DONE(QP_DONE) && !QP_IS_REFUSED(QP_DONE), "a run that is done", 0);
    check(QP_IS_REFUSED(refusal) && QP_REFUSAL(refusal) == QP_WRONG_SIZE && QP_PLACE(refusal) == 0x12345678, "a refusal with a place", 0);
    check(QP_IS_REFUSED(QP_R5) && QP_REFUSAL(QP_R5) == QP_R5 && QP_PLACE(QP_R5) == 0 && !QP_IS_REFUSED(0), "a refusal without one", 0);
    check(QP_ANSWERED((uint64_t)3 << 32 | 18) == 3 && QP_IN_ALL((uint64_t)3 << 32 | 18) == 18, "so many of so many", 0);
    check(QP_REQUEST_BUFFER == QS_REQUEST_BUFFER && QP_REPLY_ROOM == QS_REPLY_ROOM && QP_BROADCAST == QS_BROADCAST, "the same in both headers", 0);
    check(QP_BAD_RECORD < QP_WRONG_SIZE && QP_WRONG_SIZE < QP_NO_RUN && QP_NO_RUN < QP_R4 && QP_R4 < QP_R5, "the order of the refusals", 0);
}

int main(void) {
    memset(&lent, GUARD_BYTE, sizeof lent);
    tape_end = fenced();
    reply_end = fenced();
    test_tapes();
    test_damaged_tapes();
    test_thrown_tapes();
    test_a_field_too_many();
    test_by_hand();
    test_fitting();
    test_thrown_runs();
    test_codes_not_in_force();
    test_warnings();
    test_board_without_answers();
    test_broken_off();
    test_spoiled_replies();
    test_harmless_replies();
    test_other_data();
    test_read_back_order();
    test_other_boards();
    test_many_fields();
    test_addresses();
    test_broadcast_replies();
    test_numbers();
    test_near_numbers();
    test_thrown_numbers();
    test_long_lengths();
    test_macros();
    return ended();
}
