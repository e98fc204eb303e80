/* What must last when the supply goes, and how a board comes back from it: qs_restart with good, extreme and damaged input, and long random runs of requests
 * and calls, good and bad, also of several boards on one line. Prints what failed, ends in 1 if any did. The tables of every other entry are test.c's. */
#define PROGRAM "test_lasting.c"
#include "testing.h"

static const struct plate SHEET = {112, 24, 0, 4, 55};

/* ---- restart -------------------------------------------------------------------------------------------------------------------------------------------- */

enum { GUARD = 32, SPARE = 40 };

/* The buffers are longer than any length handed in, so that a length too large is still a true one. */
static struct lent {
    uint8_t guard0[GUARD];
    uint8_t image[QS_IMAGE_LENGTH + SPARE];
    uint8_t guard1[GUARD];
    uint8_t lasting[QS_LASTING_LENGTH + SPARE];
    uint8_t guard2[GUARD];
    uint8_t label[QS_LABEL_LENGTH + SPARE];
    uint8_t guard3[GUARD];
} lent, lent_before;

static uint64_t make_restart(struct plate p, uint64_t label_length, uint64_t lasting_length, uint64_t image_length) {
    return qs_restart(p.total, p.bits, p.address, p.ticks, p.pause, lent.label, label_length, lent.lasting, lasting_length, lent.image, image_length);
}

static bool as_it_was(void) {
    return memcmp(&lent_before, &lent, sizeof lent) == 0;
}

static void fill(uint8_t *bytes, size_t n) {
    for (size_t i = 0; i < n; i++)
        bytes[i] = (uint8_t)dice();
}

/* Codes A1h to A4h, counter, address and offset as the image keeps them. */
static void lasting_of(uint32_t counter, uint32_t address, uint32_t offset, uint8_t *lasting) {
    for (uint32_t i = 0; i < QS_IMAGE_CODES_SIZE; i++)
        lasting[IN_LASTING(QS_IMAGE_CODES) + i] = (uint8_t)(0xA1 + i);
    for (uint32_t i = 0; i < QS_IMAGE_COUNTER_SIZE; i++)
        lasting[IN_LASTING(QS_IMAGE_COUNTER) + i] = (uint8_t)(counter >> 8 * i);
    lasting[IN_LASTING(QS_IMAGE_ADDRESS)] = (uint8_t)address;
    for (uint32_t i = 0; i < QS_IMAGE_OFFSET_SIZE; i++)
        lasting[IN_LASTING(QS_IMAGE_OFFSET) + i] = (uint8_t)(offset >> 8 * i);
}

/* Restart from these bytes and any label, over an image that is marked all through: every byte of it is written, or none. */
static void restarts(struct plate p, const uint8_t *lasting, bool taken, const char *what, unsigned long number) {
    for (int mark = 0; mark < 256; mark += 0x55) {
        memset(&lent, mark, sizeof lent);
        memcpy(lent.lasting, lasting, QS_LASTING_LENGTH);
        fill(lent.label, QS_LABEL_LENGTH);
        lent_before = lent;
        check(make_restart(p, QS_LABEL_LENGTH, QS_LASTING_LENGTH, QS_IMAGE_LENGTH) == (taken ? 0 : QS_R1), what, number);
        if (taken)
            image_of(p, lent_before.label, lasting, lent_before.image);
        check(as_it_was(), what, number);
    }
}

/* Every other length of the lasting bytes, of the label, of the image, and of two of them. */
static void test_restart_lengths(void) {
    const uint64_t label = QS_LABEL_LENGTH, lasting = QS_LASTING_LENGTH, image = QS_IMAGE_LENGTH;
    memset(&lent, 0xA5, sizeof lent);
    lasting_of(3, 2, 4, lent.lasting);
    lent_before = lent;
    for (uint64_t n = 0; n <= lasting + SPARE; n++)
        if (n != lasting)
            check(make_restart(SHEET, label, n, image) == QS_R1 && as_it_was(), "restart refuses a length of lasting bytes", n);
    for (uint64_t n = 0; n <= label + SPARE; n++) {
        check(make_restart(SHEET, n, lasting + 1, image) == QS_R1 && as_it_was(), "restart refuses the lengths of label and lasting bytes", n);
        if (n != label)
            check(make_restart(SHEET, n, lasting, image) == QS_R1 && as_it_was(), "restart refuses a label's length", n);
    }
    for (uint64_t n = 0; n <= image + SPARE; n++) {
        check(make_restart(SHEET, label, lasting - 1, n) == QS_R1 && as_it_was(), "restart refuses the lengths of lasting bytes and image", n);
        check(make_restart(SHEET, label - 1, lasting, n) == QS_R1 && as_it_was(), "restart refuses the lengths of label and image", n);
        if (n != image)
            check(make_restart(SHEET, label, lasting, n) == QS_R1 && as_it_was(), "restart refuses an image's length", n);
    }
    check(make_restart(SHEET, lasting, label, image) == QS_R1 && as_it_was(), "restart refuses the two lengths in the wrong order", 0);
    check(make_restart(SHEET, label, lasting, image) == 0 && !as_it_was(), "restart takes the right lengths", 0);
}

/* 01, "counter at most FFFFFFh", which three bytes always are. */
static void test_restart_counters(void) {
    static const uint32_t counters[] = {0, 1, 0xFF, 0x100, 0xFFFF, 0x10000, 0x7FFFFF, 0x800000, 0xFFFFFE, 0xFFFFFF};
    uint8_t lasting[QS_LASTING_LENGTH];
    for (size_t i = 0; i < COUNT(counters); i++) {
        lasting_of(counters[i], 3, 5, lasting);
        restarts(SHEET, lasting, true, "restart and a counter", counters[i]);
    }
    for (uint32_t i = 0; i < QS_IMAGE_COUNTER_SIZE * 256; i++) {
        lasting_of(i % 256 << i / 256 * 8, 31, 5, lasting);
        restarts(SHEET, lasting, true, "restart and a byte of the counter", i);
    }
}

/* 02, "Req 01": limits 0 to 31, whatever the plate's address is, and whatever the counter before it. */
static void test_restart_addresses(void) {
    uint8_t lasting[QS_LASTING_LENGTH];
    for (uint32_t i = 0; i < 33 * 256; i++) {
        struct plate p = SHEET;
        uint32_t address = i % 256;
        p.address = i / 256;
        for (uint32_t counter = 0; counter <= 0xFFFFFF; counter += 0xFFFFFF) {
            lasting_of(counter, address, 5, lasting);
            restarts(p, lasting, address <= 31 && possible(p), "restart and an address", i);
        }
    }
}

/* 01, "offset below 2^P". */
static void test_restart_offsets(void) {
    uint8_t lasting[QS_LASTING_LENGTH];
    for (uint32_t bits = 1; bits <= 32; bits++) {
        struct plate p = {8, bits, 31, 64, 22};
        uint64_t end = (uint64_t)1 << bits;
        const uint64_t offsets[] = {0, end / 2, end - 1, end, end + 1, end * 3 / 2, 2 * end - 1, 0x80000000, UINT32_MAX};
        for (size_t i = 0; i < COUNT(offsets); i++) {
            if (offsets[i] > UINT32_MAX)
                continue;
            lasting_of(0xFFFFFF, 31, (uint32_t)offsets[i], lasting);
            restarts(p, lasting, offsets[i] < end, "restart and an offset", bits * 10 + i);
        }
    }
}

/* Any bytes with any plate near the limits: taken exactly if all of them are within theirs. */
static void test_restart_dice(void) {
    unsigned long taken = 0;
    for (unsigned long i = 0; i < 20000; i++) {
        struct plate p = {below(114), below(34), below(33), (1u << below(8)) - once_in(30), once_in(2) ? 22 : 55};
        uint32_t counter = below(0x1000000), offset = (uint32_t)((dice() & UINT32_MAX) >> below(33));
        uint32_t address = once_in(10) ? below(256) : below(32);
        uint8_t lasting[QS_LASTING_LENGTH];
        lasting_of(counter, address, offset, lasting);
        fill(lasting + IN_LASTING(QS_IMAGE_CODES), QS_IMAGE_CODES_SIZE);
        bool good = possible(p) && address <= 31 && offset < (uint64_t)1 << p.bits;
        restarts(p, lasting, good, "restart from any bytes", i);
        taken += good;
    }
    check(taken > 1000 && taken < 19000, "restarts of both kinds", taken);
}

/* ---- boards and calls ----------------------------------------------------------------------------------------------------------------------------------- */

struct board {
    struct plate plate;
    uint8_t label[QS_LABEL_LENGTH]; /* of an odd length, so that the image begins at an odd place */
    uint8_t image[QS_IMAGE_LENGTH], memory[QS_MEMORY_LENGTH(112)], room[QS_REPLY_ROOM];
};

enum kind { CHARACTER, POLL, MEASURED, FAULT, POWER_ON };

/* number is a tick or a position; value a character or a fault code. */
struct call {
    enum kind kind;
    uint32_t number;
    uint8_t value, parity;
};

struct lengths {
    uint64_t image, memory, room;
};

static struct lengths right(const struct board *b) {
    return (struct lengths){QS_IMAGE_LENGTH, QS_MEMORY_LENGTH(b->plate.total), QS_REPLY_ROOM};
}

static uint64_t make_with(struct board *b, struct call c, struct lengths n) {
    switch (c.kind) {
    case CHARACTER:
        return reply_of(qs_character(b->image, n.image, c.number, c.value, c.parity, b->memory, n.memory, b->room, n.room), b->image, c.number);
    case POLL: return reply_of(qs_poll(b->image, n.image, c.number, b->memory, n.memory, b->room, n.room), b->image, c.number);
    case MEASURED: return qs_measured(b->image, n.image, c.number);
    case FAULT: return qs_fault(b->image, n.image, c.value);
    default: return qs_power_on(b->image, n.image);
    }
}

static uint64_t make(struct board *b, struct call c) {
    return make_with(b, c, right(b));
}

static uint64_t restart(struct board *b, const uint8_t *lasting) {
    struct plate p = b->plate;
    return qs_restart(p.total, p.bits, p.address, p.ticks, p.pause, b->label, QS_LABEL_LENGTH, lasting, QS_LASTING_LENGTH, b->image, QS_IMAGE_LENGTH);
}

/* A board with any good plate and any label; its codes, counter (often at its end), address and offset are any good ones. */
static void begin(struct board *b) {
    uint8_t lasting[QS_LASTING_LENGTH];
    memset(b, 0, sizeof *b);
    b->plate = (struct plate){once_in(3) ? 112 : 1 + below(24), 1 + below(32), below(32), 1u << below(7), once_in(2) ? 22 : 55};
    uint32_t counter = once_in(2) ? 0xFFFFFF - below(8) : below(0x1000000), offset = (uint32_t)(dice() & (UINT32_MAX >> (32 - b->plate.bits)));
    lasting_of(counter, below(32), offset, lasting);
    fill(lasting + IN_LASTING(QS_IMAGE_CODES), QS_IMAGE_CODES_SIZE);
    fill(b->label, sizeof b->label);
    fill(b->image, sizeof b->image);
    check(restart(b, lasting) == 0, "a board begins", b->plate.total);
}

/* ---- requests as a master would send them, some of them bad --------------------------------------------------------------------------------------------- */

static const uint8_t COMMANDS[] = {0x42, 0x43, 0x46, 0x47, 0x49, 0x4A, 0x4B, 0x4C, 0x4D, 0x4E, 0x4F, 0x50, 0x52, 0x53, 0x55, 0x56};

static const uint8_t *table_of(const struct board *b) {
    return b->memory + b->plate.total * QS_BLOCK;
}

/* Mostly the last field or the next one. */
static uint8_t some_field(const struct board *b) {
    uint32_t fields = 0;
    while (fields < b->plate.total && table_of(b)[fields] != 0)
        fields++;
    switch (below(10)) {
    case 0: return (uint8_t)dice();
    case 1:
    case 2: return (uint8_t)below(fields + 1);
    case 3:
    case 4:
    case 5: return (uint8_t)fields;
    default: return (uint8_t)(fields > 0 ? fields - 1 : 0);
    }
}

static uint8_t stored_status(const struct board *b, uint8_t field, uint8_t otherwise) {
    return field < b->plate.total && table_of(b)[field] != 0 ? table_of(b)[field] : otherwise;
}

/* Mostly the one that the status names. */
static uint8_t some_code(const struct board *b, uint8_t status) {
    return once_in(8) ? (uint8_t)dice() : b->image[QS_IMAGE_CODES + (status >> 4 & 3)];
}

static size_t position_data(const struct board *b, uint8_t *data) {
    uint32_t wanted = (uint32_t)dice();
    if (!once_in(4))
        wanted &= UINT32_MAX >> (32 - b->plate.bits);
    for (int i = 0; i < 4; i++)
        data[i] = (uint8_t)(wanted >> (24 - 8 * i));
    data[4] = some_code(b, 0);
    return 5;
}

/* Field, offset, count and code of 4Ah and 4Bh, and the bytes to store. */
static size_t part_data(const struct board *b, bool store, uint8_t *data) {
    uint8_t field = some_field(b), status = stored_status(b, field, 0);
    uint32_t size = QS_BLOCK * ((status & 7u) + 1), offset = once_in(10) ? below(256) : below(size), left = offset < size ? size - offset : 1;
    uint32_t count = once_in(12) ? below(256) : once_in(10) ? left + 1 : once_in(4) ? left : 1 + below(left);
    data[0] = field;
    data[1] = (uint8_t)offset;
    data[2] = (uint8_t)count;
    data[3] = some_code(b, status);
    fill(data + 4, data[2]);
    return store ? 4u + data[2] : 4;
}

/* Field, status and code of 4Dh; a deletion mostly names the stored status. */
static size_t change_data(const struct board *b, uint8_t *data) {
    uint8_t field = some_field(b), status = (uint8_t)(dice() | 0x80 | (once_in(2) ? 0x40 : 0)), stored = stored_status(b, field, status);
    if (once_in(2))
        status &= 0xF9;
    if (once_in(8))
        status = QS_DELETION_OF(once_in(4) ? dice() : stored);
    data[0] = field;
    data[1] = status;
    data[2] = some_code(b, stored);
    return 3;
}

static size_t code_data(const struct board *b, uint8_t *data) {
    data[0] = (uint8_t)(once_in(10) ? below(256) : below(4));
    data[1] = once_in(5) ? (uint8_t)dice() : b->image[QS_IMAGE_CODES + data[0] % 4];
    data[2] = (uint8_t)dice();
    return 3;
}

/* New address byte and code of 55h. */
static size_t address_data(const struct board *b, uint8_t *data) {
    data[0] = (uint8_t)(once_in(5) ? dice() : 0x40 + below(32));
    data[1] = some_code(b, 0);
    return 2;
}

static size_t data_for(const struct board *b, uint8_t command, uint8_t *data) {
    switch (command) {
    case QS_SET_POSITION: return position_data(b, data);
    case QS_RESET_COUNTER: data[0] = some_code(b, 0); return 1;
    case QS_READ_DATA: return part_data(b, false, data);
    case QS_STORE_DATA: return part_data(b, true, data);
    case QS_FIELD_STATUS: data[0] = some_field(b); return 1;
    case QS_CREATE_FIELD: return change_data(b, data);
    case QS_SET_ACCESS_CODE: return code_data(b, data);
    case QS_SET_ADDRESS: return address_data(b, data);
    default: return 0;
    }
}

static uint8_t some_command(void) {
    return once_in(15) ? (uint8_t)dice() : once_in(3) ? QS_CREATE_FIELD : once_in(4) ? QS_STORE_DATA : COMMANDS[below(COUNT(COMMANDS))];
}

static uint8_t address_byte(const struct board *b) {
    return (uint8_t)(0x40 + b->image[QS_IMAGE_ADDRESS]);
}

/* A frame, mostly to this board and with its right checksum; now and then cut, longer, or with a bit turned. Its length. */
static size_t some_frame(const struct board *b, uint8_t *bytes) {
    bytes[0] = once_in(20) ? (uint8_t)dice() : once_in(8) ? 0xFF : address_byte(b);
    bytes[1] = some_command();
    size_t n = 2 + data_for(b, bytes[1], bytes + 2);
    if (once_in(30))
        n = below((uint32_t)n + 1);
    if (once_in(30)) {
        size_t more = 1 + below(once_in(2) ? 3 : 200);
        fill(bytes + n, more);
        n += more;
    }
    bytes[n] = xor_of(bytes, n);
    if (once_in(25))
        bytes[below((uint32_t)n + 1)] ^= (uint8_t)(1 << below(8));
    return n + 1;
}

/* ---- runs ----------------------------------------------------------------------------------------------------------------------------------------------- */

/* What a test does with each call. */
typedef void step(struct call c);

static uint32_t now;

/* A call between two characters that closes nothing. */
static void interlude(step *each) {
    static const uint8_t faults[] = {0x00, 0x08, 0x22, 0x24, 0x31, 0x32, 0x33, 0x34, 0x35, 0xFF};
    switch (below(12)) {
    case 0: each((struct call){.kind = POWER_ON}); return;
    case 1:
    case 2: each((struct call){.kind = MEASURED, .number = (uint32_t)dice()}); return;
    case 3:
    case 4:
    case 5: each((struct call){.kind = FAULT, .value = faults[below(COUNT(faults))]}); return;
    default: each((struct call){.kind = POLL, .number = now}); return;
    }
}

/* A frame, and mostly the poll that closes it; else the next frame's first character does. */
static void exchange(const struct board *b, step *each) {
    uint8_t bytes[512];
    uint32_t pause = b->plate.pause * b->plate.ticks;
    size_t n = some_frame(b, bytes), faulty = once_in(40) ? below((uint32_t)n) : n;
    for (size_t i = 0; i < n; i++) {
        if (once_in(60))
            interlude(each);
        now += i == 0 ? pause + below(3) : below(pause);
        each((struct call){CHARACTER, now, bytes[i], i == faulty});
    }
    if (once_in(4))
        interlude(each);
    if (!once_in(4)) {
        now += pause + below(3);
        each((struct call){.kind = POLL, .number = now});
    }
}

/* ---- what a call leaves of memory and lasting bytes ----------------------------------------------------------------------------------------------------- */

static const uint8_t STORE[] = {0x43, 0x47, 0x49, 0x4B, 0x4D, 0x4F, 0x55}, STORE_NOTHING[] = {0x42, 0x46, 0x4A, 0x4C, 0x4E, 0x50, 0x52, 0x56};

static struct board board, before;
static unsigned long stored[128], stored_by[2], left_alone[128], refused[4], silent;

static bool lasts(void) {
    return memcmp(board.memory, before.memory, sizeof board.memory) == 0 &&
           memcmp(board.image + QS_IMAGE_LASTING, before.image + QS_IMAGE_LASTING, QS_LASTING_LENGTH) == 0;
}

/* The call with one thing wrong: it is refused, and the buffers are as they were. */
static void refused_call(struct call c) {
    static struct board wrong, whole;
    struct lengths n = right(&board);
    wrong = board;
    switch (below(7)) {
    case 0: wrong.image[QS_IMAGE_LAYOUT] = (uint8_t)(QS_LAYOUT_NUMBER + 1 + below(255)); break;
    case 1: wrong.image[QS_IMAGE_TOTAL + below(5)] = 0xFF; break;
    case 2: wrong.image[QS_IMAGE_KEPT_NUMBER] = QS_KEPT_BYTES + 1; break;
    case 3: wrong.image[QS_IMAGE_ADDRESS] = (uint8_t)(32 + below(224)); break;
    case 4: n.image = below(QS_IMAGE_LENGTH); break;
    case 5: n.memory -= 1 + below(17); break;
    default: n.room = below(QS_REPLY_ROOM); break;
    }
    whole = wrong;
    bool fit = n.memory == right(&board).memory && n.room == QS_REPLY_ROOM;
    uint64_t expected = fit ? QS_R1 : c.kind > POLL ? 0 : n.room == QS_REPLY_ROOM ? QS_R2 : QS_R3;
    if (expected == 0)
        return;
    check(make_with(&wrong, c, n) == expected, "a refused call", c.kind);
    check(memcmp(&wrong, &whole, sizeof wrong) == 0, "a refused call leaves all as it was", c.kind);
    refused[expected - QS_REFUSED]++;
}

/* What each command that stores may change of the lasting bytes; 4Bh and 4Dh store to memory alone. */
static const struct {
    uint8_t command;
    size_t place, size;
} STORED_PARTS[] = {
    {QS_SET_POSITION, QS_IMAGE_OFFSET, QS_IMAGE_OFFSET_SIZE},
    {QS_INCREMENT_COUNTER, QS_IMAGE_COUNTER, QS_IMAGE_COUNTER_SIZE},
    {QS_RESET_COUNTER, QS_IMAGE_COUNTER, QS_IMAGE_COUNTER_SIZE},
    {QS_STORE_DATA, QS_IMAGE_LASTING, 0},
    {QS_CREATE_FIELD, QS_IMAGE_LASTING, 0},
    {QS_SET_ACCESS_CODE, QS_IMAGE_CODES, QS_IMAGE_CODES_SIZE},
    {QS_SET_ADDRESS, QS_IMAGE_ADDRESS, QS_IMAGE_ADDRESS_SIZE},
};

static void stored_its_part(uint8_t command) {
    size_t i = 0;
    while (STORED_PARTS[i].command != command)
        i++;
    memcpy(before.image + STORED_PARTS[i].place, board.image + STORED_PARTS[i].place, STORED_PARTS[i].size);
    check(memcmp(before.image + QS_IMAGE_LASTING, board.image + QS_IMAGE_LASTING, QS_LASTING_LENGTH) == 0, "a command stores to its own part", command);
}

/* Memory and lasting bytes change only with the reply of a command that stores. The head never does. */
static void lasting_step(struct call c) {
    if (once_in(20))
        refused_call(c);
    memset(board.room, (int)below(256), sizeof board.room);
    before = board;
    uint64_t result = make(&board, c);
    check(result <= QS_REPLY_ROOM, "a call in a run is not refused", c.kind);
    check(memcmp(board.image, before.image, QS_IMAGE_LASTING) == 0, "the image's head stands", c.kind);
    if (result == 0) {
        silent++;
        check(lasts(), "a call without a reply leaves what must last", c.kind);
    } else if (!QS_MAY_CHANGE(board.room[1])) {
        left_alone[board.room[1] & 0x7F]++;
        check(lasts(), "a reply of a command that stores nothing", board.room[1]);
    } else if (!lasts()) {
        check(c.kind == CHARACTER || c.kind == POLL, "only characters and polls store", c.kind);
        stored[board.room[1] & 0x7F]++;
        stored_by[c.kind == POLL]++;
        stored_its_part(board.room[1] & 0x7F);
    }
}

static void test_what_lasts(void) {
    for (int i = 0; i < 200; i++) {
        begin(&board);
        for (int j = 0; j < 200; j++)
            exchange(&board, lasting_step);
    }
    for (size_t i = 0; i < COUNT(STORE); i++)
        check(stored[STORE[i]] >= 100, "each command that stores did so, often", STORE[i]);
    for (size_t i = 0; i < COUNT(STORE_NOTHING); i++)
        check(left_alone[STORE_NOTHING[i]] >= 100, "each other command was answered, often", STORE_NOTHING[i]);
    check(stored_by[0] >= 100 && stored_by[1] >= 100, "in frames that a character closed, and that a poll did", stored_by[0]);
    check(silent >= 1000, "silence came", silent);
    for (size_t i = 1; i <= 3; i++)
        check(refused[i] >= 1000, "each refusal came", i);
}

/* ---- restart is power-on -------------------------------------------------------------------------------------------------------------------------------- */

static unsigned long with_frame, with_lock, with_codes;

/* The image made from a board's lasting bytes, and the board's own after power-on: equal but for the measured position, until that is given. Kept bytes
 * carry no meaning then: those of the one are 00h, those of the other what they were. */
static void restart_is_power_on(const struct board *b) {
    static const uint8_t none[QS_KEPT_BYTES];
    static struct board off, on;
    uint32_t position = (uint32_t)dice();
    off = on = *b;
    fill(off.image, sizeof off.image);
    check(restart(&off, b->image + QS_IMAGE_LASTING) == 0, "a board is restarted", b->plate.total);
    check(make(&on, (struct call){.kind = POWER_ON}) == 0, "a board's supply comes on", b->plate.total);
    check(memcmp(off.image + QS_IMAGE_MEASURED, none, 4) == 0, "nothing is measured after a restart", 0);
    for (size_t i = 0; i < QS_IMAGE_KEPT; i++)
        if (i < QS_IMAGE_MEASURED || i >= QS_IMAGE_MEASURED + QS_IMAGE_MEASURED_SIZE)
            check(off.image[i] == on.image[i], "restart is power-on", i);
    check(memcmp(off.image + QS_IMAGE_KEPT, none, QS_KEPT_BYTES) == 0, "restart clears the kept bytes", 0);
    check(memcmp(on.image + QS_IMAGE_KEPT, b->image + QS_IMAGE_KEPT, QS_KEPT_BYTES) == 0, "power-on leaves the kept bytes", 0);
    check(make(&off, (struct call){.kind = MEASURED, .number = position}) == 0, "the position is given", position);
    check(make(&on, (struct call){.kind = MEASURED, .number = position}) == 0, "the position is given", position);
    check(memcmp(off.image, on.image, QS_IMAGE_KEPT) == 0, "restart with a position is power-on with it", position);
    check(memcmp(off.memory, b->memory, sizeof off.memory) == 0 && memcmp(on.memory, b->memory, sizeof on.memory) == 0, "memory stays", 0);
}

static void restart_step(struct call c) {
    check(make(&board, c) <= QS_REPLY_ROOM, "a call in a run is not refused", c.kind);
    if (!once_in(5))
        return;
    with_frame += board.image[QS_IMAGE_OPEN];
    with_lock += board.image[QS_IMAGE_LOCKED];
    with_codes += board.image[QS_IMAGE_WAITING] != 0;
    restart_is_power_on(&board);
}

static void test_restart_is_power_on(void) {
    for (int i = 0; i < 100; i++) {
        begin(&board);
        restart_is_power_on(&board);
        for (int j = 0; j < 60; j++)
            exchange(&board, restart_step);
    }
    check(with_frame >= 100 && with_lock >= 100 && with_codes >= 100, "with open frames, locks and waiting codes", with_frame);
}

/* ---- a host with a flash -------------------------------------------------------------------------------------------------------------------------------- */

/* board loses its supply now and then, and has only what its host wrote to flash; twin is never off. */
static struct board twin;
static struct {
    uint8_t memory[QS_MEMORY_LENGTH(112)], lasting[QS_LASTING_LENGTH];
} flash;
static unsigned long losses, losses_with_fields, writes, answers_after;

static void write_flash(void) {
    memcpy(flash.memory, board.memory, sizeof flash.memory);
    memcpy(flash.lasting, board.image + QS_IMAGE_LASTING, QS_LASTING_LENGTH);
    writes++;
}

/* All but the kept bytes beyond their number, which are not read. */
static bool same(void) {
    return memcmp(board.image, twin.image, QS_IMAGE_KEPT + board.image[QS_IMAGE_KEPT_NUMBER]) == 0 &&
           memcmp(board.memory, twin.memory, sizeof board.memory) == 0 && memcmp(board.room, twin.room, sizeof board.room) == 0;
}

static void lose_supply(void) {
    uint32_t position = (uint32_t)dice();
    fill(board.image, sizeof board.image);
    fill(board.memory, sizeof board.memory);
    memcpy(board.memory, flash.memory, sizeof flash.memory);
    check(restart(&board, flash.lasting) == 0, "a restart from flash", losses);
    check(make(&board, (struct call){.kind = MEASURED, .number = position}) == 0, "its position is given", losses);
    check(make(&twin, (struct call){.kind = POWER_ON}) == 0, "the twin's supply comes on", losses);
    check(make(&twin, (struct call){.kind = MEASURED, .number = position}) == 0, "its position is given", losses);
    check(same(), "after a restart from flash", losses);
    losses++;
    losses_with_fields += table_of(&board)[0] != 0;
}

static void flash_step(struct call c) {
    if (once_in(80))
        lose_supply();
    memset(board.room, (int)below(256), sizeof board.room);
    memcpy(twin.room, board.room, sizeof twin.room);
    uint64_t result = make(&board, c), expected = make(&twin, c);
    check(result == expected && result <= QS_REPLY_ROOM, "the board that was off answers as its twin does", losses);
    check(same(), "the board that was off is what its twin is", losses);
    if (result != 0 && QS_MAY_CHANGE(board.room[1]))
        write_flash();
    answers_after += result != 0 && losses > 0;
}

static void test_flash(void) {
    for (int i = 0; i < 200; i++) {
        begin(&board);
        twin = board;
        write_flash();
        for (int j = 0; j < 150; j++)
            exchange(&board, flash_step);
    }
    check(losses >= 1000 && losses_with_fields >= 500, "the supply went often, with fields there", losses_with_fields);
    check(writes >= 1000 && answers_after >= 1000, "much was written and answered", writes);
}

/* ---- a new address lasts -------------------------------------------------------------------------------------------------------------------------------- */

/* Sends bytes with their checksum and polls when the pause is over: the reply's length. */
static uint64_t asked_bytes(struct board *b, const uint8_t *bytes, size_t n) {
    uint8_t sum = xor_of(bytes, n);
    for (size_t i = 0; i <= n; i++)
        check(make(b, (struct call){CHARACTER, ++now, i < n ? bytes[i] : sum, 0}) == 0, "a character is silent", i);
    now += b->plate.pause * b->plate.ticks;
    return make(b, (struct call){.kind = POLL, .number = now});
}

/* The board answers at this address byte with it, and at no other that a board can have. */
static void is_only_at(struct board *b, uint8_t address, const char *what) {
    for (uint8_t byte = 0x40; byte <= 0x5F; byte++) {
        const uint8_t request[] = {byte, QS_READ_COUNTER};
        uint64_t length = asked_bytes(b, request, sizeof request);
        check(length == (byte == address ? 6u : 0u), what, byte);
        check(length == 0 || b->room[0] == address, what, byte);
    }
}

/* Every address given to a board, with and without a waiting code: one lasting byte changes, and the board that was off is at the new address. */
static void test_new_address_lasts(void) {
    for (uint8_t i = 0; i < 64; i++) {
        const uint8_t old = (uint8_t)(0x40 + (i * 7 + 3) % 32), wanted = (uint8_t)(0x40 + i / 2), code = i % 2 ? 0x31 : 0;
        uint8_t lasting[QS_LASTING_LENGTH], kept[QS_LASTING_LENGTH];
        begin(&board);
        lasting_of(4711, old - 0x40u, 1, lasting);
        check(restart(&board, lasting) == 0 && make(&board, (struct call){.kind = FAULT, .value = code}) == 0, "a board at its old address", old);
        const uint8_t request[] = {old, QS_SET_ADDRESS, wanted, lasting[IN_LASTING(QS_IMAGE_CODES)]};
        check(asked_bytes(&board, request, sizeof request) == 3 && board.room[0] == wanted, "it takes the new one and answers with it", wanted);
        check(board.room[1] == (code ? QS_SET_ADDRESS | QS_WARNING_BIT : QS_SET_ADDRESS) && QS_MAY_CHANGE(board.room[1]), "its host must write", wanted);
        lasting[IN_LASTING(QS_IMAGE_ADDRESS)] = wanted - 0x40;
        memcpy(kept, board.image + QS_IMAGE_LASTING, sizeof kept);
        check(memcmp(kept, lasting, sizeof kept) == 0, "the address is the one lasting byte that changed", wanted);
        is_only_at(&board, wanted, "the board before its supply went");
        fill(board.image, sizeof board.image);
        check(restart(&board, kept) == 0, "the board is restarted", wanted);
        is_only_at(&board, wanted, "the board that was off");
    }
}

/* ---- the length of a board's replies -------------------------------------------------------------------------------------------------------------------- */

static unsigned long done[128], errors[128], silences[128], warnings;

/* Sends a request, now and then with a parity fault or a bit turned on the line; the reply's length. */
static uint64_t sent(const uint8_t *request, size_t n) {
    uint32_t pause = board.plate.pause * board.plate.ticks;
    size_t faulty = once_in(10) ? below((uint32_t)n) : n, turned = once_in(10) ? below((uint32_t)n) : n;
    for (size_t i = 0; i < n; i++) {
        uint8_t value = i == turned ? request[i] ^ (uint8_t)(1 << below(8)) : request[i];
        now += i == 0 ? pause : 1;
        check(make(&board, (struct call){CHARACTER, now, value, i == faulty}) == 0, "a character is silent", i);
    }
    now += pause;
    return make(&board, (struct call){.kind = POLL, .number = now});
}

/* Its length is told from the second byte on, and the judge takes it. */
static void reply_is_told(const uint8_t *request, size_t asked, uint64_t replied) {
    for (uint64_t here = 0; here <= replied; here++)
        check(qs_reply_length(request, asked, board.room, here) == (here < 2 ? 0 : replied), "the length of a board's reply", request[1]);
    uint32_t verdict = qs_judge(request, asked, board.room, replied);
    uint64_t part = qs_data_part(request, asked, board.room, replied);
    check(verdict < QS_VERDICT_REFUSED, "a board's reply is judged", request[1]);
    check(QS_DATA_PLACE(part) == 2 && QS_DATA_LENGTH(part) == replied - 3, "a board's reply has its data part", request[1]);
    errors[request[1]] += QS_VERDICT_IS_ERROR(verdict);
    done[request[1]] += !QS_VERDICT_IS_ERROR(verdict);
    warnings += QS_VERDICT_WARNS(verdict);
    for (uint64_t shorter = 0; shorter < replied; shorter++)
        check(qs_data_part(request, asked, board.room, shorter) == 0, "a cut reply has none", request[1]);
}

static void ask(void) {
    uint8_t data[300], request[QS_REQUEST_BUFFER], command = COMMANDS[below(COUNT(COMMANDS))];
    size_t n = data_for(&board, command, data);
    uint64_t asked = qs_request(once_in(4) ? QS_BROADCAST : board.image[QS_IMAGE_ADDRESS], command, data, n, request, sizeof request);
    if (once_in(20))
        check(make(&board, (struct call){.kind = FAULT, .value = (uint8_t)dice()}) == 0, "a fault is noted", 0);
    if (QS_IS_REFUSED(asked))
        return;
    uint64_t replied = sent(request, asked);
    check(replied <= QS_REPLY_ROOM, "a request is not refused", command);
    if (replied > 0)
        reply_is_told(request, asked, replied);
    else
        silences[command]++;
}

static void test_reply_lengths(void) {
    for (int i = 0; i < 100; i++) {
        begin(&board);
        for (int j = 0; j < 300; j++)
            ask();
    }
    for (size_t i = 0; i < COUNT(COMMANDS); i++) {
        uint8_t command = COMMANDS[i];
        check(command == QS_RESET ? done[command] == 0 && silences[command] > 100 : done[command] > 100, "each command was answered, but 53h", command);
        check(command == QS_READ_STATUS || errors[command] > 100, "each command met with an error", command);
    }
    check(warnings > 100, "some warned", warnings);
}

/* ---- several boards on one line ------------------------------------------------------------------------------------------------------------------------- */

enum { BOARDS = 5, NOBODY = BOARDS };

static struct board line[BOARDS];
static uint8_t expected_address[BOARDS]; /* by the traffic alone: the plate's, then the last one that was given */
static unsigned long given, declined, passed_over, by_broadcast, supply_losses;

/* Boards fresh from their plates, each at an address of its own, all with one speed. */
static void begin_line(void) {
    for (uint32_t i = 0; i < BOARDS; i++) {
        struct board *b = &line[i];
        memset(b, 0, sizeof *b);
        b->plate = (struct plate){1 + below(112), 1 + below(32), (6 * i + below(6)) % 32, 4, 55};
        fill(b->label, sizeof b->label);
        struct plate p = b->plate;
        uint64_t made = qs_fresh(p.total, p.bits, p.address, p.ticks, p.pause, b->label, QS_LABEL_LENGTH, b->image, QS_IMAGE_LENGTH);
        check(made == 0 && b->image[QS_IMAGE_ADDRESS] == p.address, "a fresh board has its plate's address", i);
        expected_address[i] = address_byte(b);
    }
}

static uint32_t board_at(uint8_t address) {
    uint32_t i = 0;
    while (i < BOARDS && expected_address[i] != address)
        i++;
    return i;
}

/* A byte that no board on the line has; now and then none that a board can have. */
static uint8_t free_address(void) {
    uint8_t byte;
    do
        byte = (uint8_t)(once_in(6) ? dice() : 0x40 + below(32));
    while (board_at(byte) != NOBODY);
    return byte;
}

/* All boards but the one that sends hear these characters, and then the pause; none of them answers before. */
static void heard(const uint8_t *bytes, uint64_t n, uint32_t sender, uint64_t replied[BOARDS]) {
    for (uint64_t j = 0; j < n; j++) {
        now += 44;
        for (uint32_t i = 0; i < BOARDS; i++)
            if (i != sender)
                check(make(&line[i], (struct call){CHARACTER, now, bytes[j], 0}) == 0, "no board speaks while another does", i);
    }
    now += 220;
    for (uint32_t i = 0; i < BOARDS; i++)
        replied[i] = i == sender ? 0 : make(&line[i], (struct call){.kind = POLL, .number = now});
}

/* The reply of one board is heard by the others, which pass it over. */
static void others_pass_over(uint32_t sender, uint64_t length) {
    uint64_t replied[BOARDS];
    heard(line[sender].room, length, sender, replied);
    for (uint32_t i = 0; i < BOARDS; i++)
        check(replied[i] == 0, "another board's reply is passed over", i);
    passed_over++;
}

static void told_on_the_line(uint32_t i, const uint8_t *request, uint64_t asked, uint64_t length) {
    const uint8_t *reply = line[i].room;
    uint32_t verdict = qs_judge(request, asked, reply, length);
    bool moves = request[1] == QS_SET_ADDRESS && verdict <= QS_VERDICT_DONE_WITH_WARNING;
    check(verdict < QS_VERDICT_REFUSED, "the asked board's reply is judged", i);
    if (request[1] == QS_READ_VERSION)
        check(memcmp(reply + 2, line[i].label + QS_LABEL_SERIAL, QS_LABEL_LENGTH - QS_LABEL_SERIAL) == 0, "each board tells its own label", i);
    if (moves)
        expected_address[i] = request[2];
    given += moves;
    declined += request[1] == QS_SET_ADDRESS && !moves;
    check(reply[0] == expected_address[i] && address_byte(&line[i]) == expected_address[i], "the address is the last one given", i);
}

/* One board is asked, or an address at which none is: exactly that one answers. */
static void ask_one(void) {
    static const uint8_t commands[] = {QS_SET_ADDRESS, QS_SET_ADDRESS, QS_READ_VERSION, QS_READ_TYPE_LABEL, QS_MEMORY_STATUS, QS_INCREMENT_COUNTER};
    uint8_t request[QS_REQUEST_BUFFER], command = commands[below(COUNT(commands))], data[2] = {free_address(), once_in(6) ? 0x54 : 0x55};
    uint32_t address = once_in(5) ? below(32) : (uint32_t)expected_address[below(BOARDS)] - 0x40, wanted = board_at((uint8_t)(0x40 + address));
    uint64_t replied[BOARDS], asked = qs_request(address, command, data, command == QS_SET_ADDRESS ? 2 : 0, request, sizeof request);
    heard(request, asked, NOBODY, replied);
    for (uint32_t i = 0; i < BOARDS; i++)
        check((replied[i] != 0) == (i == wanted) && replied[i] <= QS_REPLY_ROOM, "the asked board answers, and no other", i);
    if (wanted == NOBODY)
        return;
    told_on_the_line(wanted, request, asked, replied[wanted]);
    others_pass_over(wanted, replied[wanted]);
}

/* Each board answers with its own address; no more is done with replies that are on the line at once. */
static void ask_all(void) {
    static const uint8_t request[] = {0xFF, QS_READ_COUNTER, 0xFF ^ QS_READ_COUNTER};
    uint64_t replied[BOARDS];
    heard(request, sizeof request, NOBODY, replied);
    for (uint32_t i = 0; i < BOARDS; i++)
        check(replied[i] == 6 && line[i].room[0] == expected_address[i], "every board answers a broadcast with its own address", i);
    by_broadcast++;
}

/* One board was off and has only its plate, its label and its lasting bytes. */
static void lose_one(void) {
    struct board *b = &line[below(BOARDS)];
    uint8_t lasting[QS_LASTING_LENGTH];
    memcpy(lasting, b->image + QS_IMAGE_LASTING, sizeof lasting);
    fill(b->image, sizeof b->image);
    check(restart(b, lasting) == 0, "a board of the line is restarted", 0);
    supply_losses++;
}

static void test_line(void) {
    for (int i = 0; i < 40; i++) {
        begin_line();
        for (int j = 0; j < 100; j++) {
            if (once_in(10))
                lose_one();
            if (once_in(10))
                ask_all();
            ask_one();
        }
    }
    check(given >= 500 && declined >= 200, "addresses were given and declined", given);
    check(passed_over >= 1000 && by_broadcast >= 100 && supply_losses >= 100, "replies were heard, broadcasts sent, supplies lost", passed_over);
}

int main(void) {
    test_restart_lengths();
    test_restart_counters();
    test_restart_addresses();
    test_restart_offsets();
    test_restart_dice();
    test_what_lasts();
    test_restart_is_power_on();
    test_flash();
    test_new_address_lasts();
    test_reply_lengths();
    test_line();
    return ended();
}
