/* Every entry of quicksetter.h with good, extreme and damaged input, and the states that no tape reaches. Each call's buffers stand between guard bytes.
 * Prints what failed, ends in 1 if any did. Tables say what is tried; document 01 is cited by its words. The bytes that last,
 * and long random runs, are test_lasting.c's. */
#define _DEFAULT_SOURCE /* mmap */
#define PROGRAM "test.c"
#include "testing.h"

#include <sys/mman.h>

/* ---- what one call is lent ------------------------------------------------------------------------------------------------------------------------------ */

enum { GUARD = 32, SPARE = 40, GUARD_BYTE = 0xA5, ROOM_BYTE = 0xEE };

/* The buffers are longer than any length handed in, so that a length too large is still a true one. */
struct lent {
    uint8_t guard0[GUARD];
    uint8_t image[QS_IMAGE_LENGTH + SPARE];
    uint8_t guard1[GUARD];
    uint8_t memory[QS_MEMORY_LENGTH(112) + SPARE];
    uint8_t guard2[GUARD];
    uint8_t room[QS_REPLY_ROOM + SPARE];
    uint8_t guard3[GUARD];
    uint8_t lasting[QS_LASTING_LENGTH + SPARE];
    uint8_t guard4[GUARD];
    uint8_t label[QS_LABEL_LENGTH + SPARE];
    uint8_t guard5[GUARD];
};

struct lengths {
    uint64_t image, memory, room;
};

static const struct plate SHEET = {112, 24, 0, 4, 55};
static const struct plate EIGHT = {8, 24, 0, 4, 55};
static const struct plate ONE_BLOCK = {1, 24, 0, 4, 55};
static const struct plate LAST_ADDRESS = {112, 24, 31, 4, 55};

static struct lent lent, before;
static uint32_t now;

static struct lengths right(struct plate p) {
    return (struct lengths){QS_IMAGE_LENGTH, QS_MEMORY_LENGTH(p.total), QS_REPLY_ROOM};
}

/* ---- the library's calls, all of them ------------------------------------------------------------------------------------------------------------------- */

static uint64_t make_fresh(struct plate p, uint64_t label_length, uint64_t image_length) {
    return qs_fresh(p.total, p.bits, p.address, p.ticks, p.pause, lent.label, label_length, lent.image, image_length);
}

static uint64_t make_restart(struct plate p) {
    return qs_restart(p.total, p.bits, p.address, p.ticks, p.pause, lent.label, QS_LABEL_LENGTH, lent.lasting, QS_LASTING_LENGTH, lent.image, QS_IMAGE_LENGTH);
}

static uint64_t character_with(struct lengths n, uint32_t tick, uint8_t value, uint8_t parity) {
    return reply_of(qs_character(lent.image, n.image, tick, value, parity, lent.memory, n.memory, lent.room, n.room), lent.image, tick);
}

static uint64_t poll_with(struct lengths n, uint32_t tick) {
    return reply_of(qs_poll(lent.image, n.image, tick, lent.memory, n.memory, lent.room, n.room), lent.image, tick);
}

static uint64_t measured_with(struct lengths n, uint32_t position) {
    return qs_measured(lent.image, n.image, position);
}

static uint64_t fault_with(struct lengths n, uint8_t code) {
    return qs_fault(lent.image, n.image, code);
}

static uint64_t power_on_with(struct lengths n) {
    return qs_power_on(lent.image, n.image);
}

/* asked is the command and its data. */
static uint64_t request_with(uint32_t address, const uint8_t *asked, uint64_t asked_length, uint64_t buffer_length) {
    return qs_request(address, asked[0], asked + 1, asked_length - 1, lent.room, buffer_length);
}

struct judgement {
    uint32_t verdict;
    uint64_t part;
};

static struct judgement judge(const uint8_t *request, uint64_t request_length, const uint8_t *reply, uint64_t reply_length) {
    return (struct judgement){qs_judge(request, request_length, reply, reply_length), qs_data_part(request, request_length, reply, reply_length)};
}

/* ---- what a call leaves --------------------------------------------------------------------------------------------------------------------------------- */

static void remember(void) {
    before = lent;
}

static bool as_it_was(void) {
    return memcmp(&before, &lent, sizeof lent) == 0;
}

/* Guards, the image's head, and all of the buffers that lies beyond the lengths that were handed in. */
static bool guards_stand(struct lengths n) {
    return memcmp(lent.guard0, before.guard0, GUARD) == 0 && memcmp(lent.guard1, before.guard1, GUARD) == 0 &&
           memcmp(lent.guard2, before.guard2, GUARD) == 0 && memcmp(lent.guard3, before.guard3, GUARD) == 0 &&
           memcmp(lent.guard4, before.guard4, GUARD) == 0 && memcmp(lent.guard5, before.guard5, GUARD) == 0 &&
           memcmp(lent.lasting, before.lasting, sizeof lent.lasting) == 0 && memcmp(lent.label, before.label, sizeof lent.label) == 0 &&
           memcmp(lent.image, before.image, QS_IMAGE_LASTING) == 0 &&
           memcmp(lent.image + n.image, before.image + n.image, sizeof lent.image - n.image) == 0 &&
           memcmp(lent.memory + n.memory, before.memory + n.memory, sizeof lent.memory - n.memory) == 0 &&
           memcmp(lent.room + n.room, before.room + n.room, sizeof lent.room - n.room) == 0;
}

/* The label's bytes tell their place, so that none can stand for another: 52h tells the first four, 56h the rest. */
#define TYPE_LABEL "B0 B1 B2 B3"
#define VERSION_LABEL "B4 B5 B6 B7 B8 B9 BA BB BC BD BE BF C0 C1 C2 C3 C4 C5 C6 C7 C8 C9 CA CB CC CD CE CF D0 D1 D2 D3 D4 D5 D6 D7 D8"

static void lend_label(void) {
    for (unsigned i = 0; i < QS_LABEL_LENGTH; i++)
        lent.label[i] = (uint8_t)(0xB0 + i);
}

/* A fresh board with blank memory and everything round it marked. */
static void start(struct plate p) {
    uint8_t lasting[QS_LASTING_LENGTH], expected[QS_IMAGE_LENGTH];
    memset(&lent, GUARD_BYTE, sizeof lent);
    memset(lent.memory, 0, QS_MEMORY_LENGTH(p.total));
    memset(lent.room, ROOM_BYTE, sizeof lent.room);
    lend_label();
    fresh_lasting(p, lasting);
    image_of(p, lent.label, lasting, expected);
    now = 1000;
    check(make_fresh(p, QS_LABEL_LENGTH, QS_IMAGE_LENGTH) == 0, "a good plate is taken", p.total);
    check(memcmp(lent.image, expected, sizeof expected) == 0, "a fresh image tells its plate", p.total);
}

enum call { CHARACTER, POLL, MEASURED, FAULT, POWER_ON, CALLS };

static uint64_t call_with(enum call call, struct lengths n) {
    switch (call) {
    case CHARACTER: return character_with(n, now, 0x40, 0);
    case POLL: return poll_with(n, now);
    case MEASURED: return measured_with(n, 5);
    case FAULT: return fault_with(n, 0x31);
    default: return power_on_with(n);
    }
}

static bool takes_buffers(enum call call) {
    return call == CHARACTER || call == POLL;
}

/* Every call refuses so; those that take no memory and no room know R1 only. */
static void all_refuse(struct lengths n, uint64_t refusal, const char *what, unsigned long number) {
    for (int call = 0; call < CALLS; call++) {
        if (refusal != QS_R1 && !takes_buffers((enum call)call))
            continue;
        remember();
        check(call_with((enum call)call, n) == refusal, what, number * 10 + (unsigned long)call);
        check(as_it_was(), what, number * 10 + (unsigned long)call);
    }
}

static void all_take(struct plate p, const char *what, unsigned long number) {
    struct lent kept = lent;
    for (int call = 0; call < CALLS; call++) {
        lent = kept;
        remember();
        check(call_with((enum call)call, right(p)) < QS_REFUSED, what, number * 10 + (unsigned long)call);
        check(guards_stand(right(p)), what, number * 10 + (unsigned long)call);
    }
    lent = kept;
}

/* ---- plates --------------------------------------------------------------------------------------------------------------------------------------------- */

/* The plate's numbers in the order of the calls. */
enum { BLOCKS, BITS, ADDRESS, TICKS, PAUSE, NUMBERS };

static const uint32_t BAD_NUMBERS[NUMBERS][6] = {
    {0, 113, 128, 256 + 8, 65536 + 8, UINT32_MAX}, {0, 33, 64, 256 + 24, 65536 + 24, UINT32_MAX}, {32, 64, 255, 256, 65536, UINT32_MAX},
    {0, 3, 5, 128, 256 + 4, UINT32_MAX},           {0, 21, 23, 54, 256 + 55, UINT32_MAX},
};

static struct plate with_number(struct plate p, int which, uint32_t value) {
    uint32_t *places[NUMBERS] = {&p.total, &p.bits, &p.address, &p.ticks, &p.pause};
    *places[which] = value;
    return p;
}

/* Fresh and restart with this plate, each over a board that is marked all through, take it or refuse it. Restart has another address than the plate's. */
static void plate_is_taken(struct plate p, bool taken, unsigned long number) {
    for (int restart = 0; restart < 2; restart++) {
        memset(&lent, restart ? ROOM_BYTE : GUARD_BYTE, sizeof lent);
        lend_label();
        fresh_lasting(restart ? with_number(p, ADDRESS, (p.address + 1) % 32) : p, lent.lasting);
        remember();
        uint64_t result = restart ? make_restart(p) : make_fresh(p, QS_LABEL_LENGTH, QS_IMAGE_LENGTH);
        check(result == (taken ? 0 : QS_R1), restart ? "restart and a plate" : "fresh and a plate", number);
        if (taken)
            image_of(p, lent.label, lent.lasting, before.image);
        check(as_it_was(), restart ? "what restart leaves" : "what fresh leaves", number);
    }
}

static void test_bad_plates(void) {
    for (int which = 0; which < NUMBERS; which++) {
        for (int i = 0; i < 6; i++)
            plate_is_taken(with_number(EIGHT, which, BAD_NUMBERS[which][i]), false, (unsigned long)(which * 10 + i));
        for (uint32_t value = 0; value < 600; value++) {
            struct plate p = with_number(EIGHT, which, value);
            plate_is_taken(p, possible(p), (unsigned long)which * 1000 + value);
        }
    }
}

static void test_good_plates(void) {
    static const uint32_t ticks[] = {1, 2, 4, 8, 16, 32, 64};
    for (int i = 0; i < 7 * 2 * 2 * 2 * 2; i++) {
        struct plate p = {i / 7 % 2 ? 1 : 112, i / 14 % 2 ? 1 : 32, i / 28 % 2 ? 0 : 31, ticks[i % 7], i / 56 % 2 ? 22 : 55};
        start(p);
        all_take(p, "a good plate", (unsigned long)i);
    }
}

/* CHANGELOG.md: the lengths of images of other layouts. */
enum { LENGTH_OF_0_1 = 165, LENGTH_OF_LAYOUT_1 = 171 };

static const uint64_t WRONG_IMAGES[] = {
    0, 1, QS_IMAGE_LABEL, QS_IMAGE_LASTING, QS_IMAGE_KEPT, LENGTH_OF_0_1, LENGTH_OF_LAYOUT_1, QS_IMAGE_LENGTH - QS_LABEL_LENGTH, QS_IMAGE_LENGTH - 1,
    QS_IMAGE_LENGTH + 1, QS_IMAGE_LENGTH + SPARE,
};
static const uint64_t WRONG_LABELS[] = {0, 1, QS_LABEL_TYPE_SIZE, QS_LABEL_DATE, QS_LABEL_LENGTH - 1, QS_LABEL_LENGTH + 1, QS_LABEL_LENGTH + SPARE};

/* Byte by byte: what is not named here is 00h. */
static void test_fresh(void) {
    uint8_t expected[QS_IMAGE_LENGTH] = {
        [QS_IMAGE_LAYOUT] = QS_LAYOUT_NUMBER, [QS_IMAGE_TOTAL] = 112, [QS_IMAGE_BITS] = 24, [QS_IMAGE_PLATE_ADDRESS] = 31, [QS_IMAGE_TICKS] = 4,
        [QS_IMAGE_PAUSE] = 55,                [QS_IMAGE_CODES] = 0x55, 0x55, 0x55, 0x55,    [QS_IMAGE_ADDRESS] = 31,
    };
    memset(&lent, GUARD_BYTE, sizeof lent);
    lend_label();
    memcpy(expected + QS_IMAGE_LABEL, lent.label, QS_LABEL_LENGTH);
    remember();
    check(make_fresh(LAST_ADDRESS, QS_LABEL_LENGTH, QS_IMAGE_LENGTH) == 0, "fresh returns 0", 0);
    check(memcmp(lent.image, expected, sizeof expected) == 0, "a fresh image", 0);
    memcpy(lent.image, before.image, sizeof expected);
    check(as_it_was(), "fresh leaves all behind the image as it was, and the label", 0);
    for (size_t i = 0; i < COUNT(WRONG_IMAGES); i++) {
        check(make_fresh(SHEET, QS_LABEL_LENGTH, WRONG_IMAGES[i]) == QS_R1 && as_it_was(), "fresh refuses an image's length", WRONG_IMAGES[i]);
        check(make_fresh(SHEET, QS_LABEL_LENGTH - 1, WRONG_IMAGES[i]) == QS_R1 && as_it_was(), "fresh refuses both lengths", WRONG_IMAGES[i]);
    }
    for (size_t i = 0; i < COUNT(WRONG_LABELS); i++)
        check(make_fresh(SHEET, WRONG_LABELS[i], QS_IMAGE_LENGTH) == QS_R1 && as_it_was(), "fresh refuses a label's length", WRONG_LABELS[i]);
}

/* Each place of the label with each byte: fresh takes it as it is, and no call minds it. */
static void test_labels(void) {
    for (uint32_t i = 0; i < QS_LABEL_LENGTH * 256; i++) {
        uint8_t value = (uint8_t)i;
        start(EIGHT);
        lent.label[i / 256] = value;
        check(make_fresh(EIGHT, QS_LABEL_LENGTH, QS_IMAGE_LENGTH) == 0, "a label of any bytes", i);
        check(memcmp(lent.image + QS_IMAGE_LABEL, lent.label, QS_LABEL_LENGTH) == 0, "the label stands in the image", i);
        all_take(EIGHT, "a label of any bytes", i);
    }
}

/* ---- damaged images, wrong sizes ------------------------------------------------------------------------------------------------------------------------ */

/* Bytes at a place of the image or of memory. */
struct bytes {
    size_t place, size;
    uint8_t value[16];
};

static void set(uint8_t *buffer, struct bytes b) {
    memcpy(buffer + b.place, b.value, b.size);
}

static bool holds(const uint8_t *buffer, struct bytes b) {
    return memcmp(buffer + b.place, b.value, b.size) == 0;
}

/* The counter at its end. */
#define FULL_COUNTER {QS_IMAGE_COUNTER, QS_IMAGE_COUNTER_SIZE, {0xFF, 0xFF, 0xFF}}

/* 01, "State limits", each number that an image can hold beyond its limit, and what no image holds. The counter's three bytes hold every counter. */
static const struct {
    const char *name;
    struct bytes image;
} DAMAGED[] = {
    {"address 32", {QS_IMAGE_ADDRESS, 1, {32}}},
    {"a counter of four bytes, 20000000h", {QS_IMAGE_COUNTER, QS_IMAGE_COUNTER_SIZE + 1, {0, 0, 0, 0x20}}},
    {"a counter of four bytes, FFFFFFFFh", {QS_IMAGE_COUNTER, QS_IMAGE_COUNTER_SIZE + 1, {0xFF, 0xFF, 0xFF, 0xFF}}},
    {"address 40h, a byte of the wire", {QS_IMAGE_ADDRESS, 1, {0x40}}},
    {"address 255, the broadcast's number", {QS_IMAGE_ADDRESS, 1, {QS_BROADCAST}}},
    {"offset 2^24", {QS_IMAGE_OFFSET, 4, {0, 0, 0, 1}}},
    {"offset FFFFFFFFh", {QS_IMAGE_OFFSET, 4, {0xFF, 0xFF, 0xFF, 0xFF}}},
    {"a code waits twice: 1 and 2", {QS_IMAGE_WAITING, 4, {5, 5, 0, 0}}},
    {"a code waits twice: 1 and 4", {QS_IMAGE_WAITING, 4, {5, 6, 7, 5}}},
    {"a code waits twice: 2 and 4", {QS_IMAGE_WAITING, 4, {5, 6, 7, 6}}},
    {"a code waits twice: 3 and 4", {QS_IMAGE_WAITING, 4, {5, 6, 7, 7}}},
    {"a code waits twice: 1 and 3", {QS_IMAGE_WAITING, 4, {5, 6, 5, 0}}},
    {"a code waits twice: 2 and 3", {QS_IMAGE_WAITING, 4, {5, 6, 6, 0}}},
    {"an empty place before a code: 1", {QS_IMAGE_WAITING, 4, {0, 5, 0, 0}}},
    {"an empty place before a code: 2", {QS_IMAGE_WAITING, 4, {5, 0, 6, 0}}},
    {"an empty place before a code: 3", {QS_IMAGE_WAITING, 4, {5, 6, 0, 7}}},
    {"three empty places before a code", {QS_IMAGE_WAITING, 4, {0, 0, 0, 1}}},
    {"22h waits first", {QS_IMAGE_WAITING, 4, {0x22, 0, 0, 0}}},
    {"24h waits first", {QS_IMAGE_WAITING, 4, {0x24, 0, 0, 0}}},
    {"24h waits second", {QS_IMAGE_WAITING, 4, {5, 0x24, 0, 0}}},
    {"22h waits third", {QS_IMAGE_WAITING, 4, {1, 2, 0x22, 0}}},
    {"22h waits last", {QS_IMAGE_WAITING, 4, {1, 2, 3, 0x22}}},
    {"24h waits last", {QS_IMAGE_WAITING, 4, {1, 2, 3, 0x24}}},
    {"locked is 2", {QS_IMAGE_LOCKED, 1, {2}}},
    {"locked is 255", {QS_IMAGE_LOCKED, 1, {255}}},
    {"open is 2", {QS_IMAGE_OPEN, 1, {2}}},
    {"open is 128", {QS_IMAGE_OPEN, 1, {128}}},
    {"longer is 2", {QS_IMAGE_LONGER, 1, {2}}},
    {"longer is 129", {QS_IMAGE_LONGER, 1, {129}}},
    {"parity is 2", {QS_IMAGE_PARITY, 1, {2}}},
    {"parity is 255", {QS_IMAGE_PARITY, 1, {255}}},
    {"136 bytes kept", {QS_IMAGE_KEPT_NUMBER, 1, {QS_KEPT_BYTES + 1}}},
    {"255 bytes kept", {QS_IMAGE_KEPT_NUMBER, 1, {255}}},
};

static const struct {
    const char *name;
    struct bytes image;
} EXTREME[] = {
    {"codes 00h and FFh", {QS_IMAGE_CODES, 4, {0, 0xFF, 0, 0xFF}}},
    {"counter FFFFFFh", FULL_COUNTER},
    {"address 31", {QS_IMAGE_ADDRESS, 1, {31}}},
    {"counter FFFFFFh and address 31", {QS_IMAGE_COUNTER, QS_IMAGE_COUNTER_SIZE + QS_IMAGE_ADDRESS_SIZE, {0xFF, 0xFF, 0xFF, 31}}},
    {"offset 2^24 - 1", {QS_IMAGE_OFFSET, 4, {0xFF, 0xFF, 0xFF, 0}}},
    {"measured FFFFFFFFh", {QS_IMAGE_MEASURED, 4, {0xFF, 0xFF, 0xFF, 0xFF}}},
    {"four codes wait", {QS_IMAGE_WAITING, 4, {1, 2, 3, 4}}},
    {"the largest codes wait", {QS_IMAGE_WAITING, 4, {255, 254, 253, 252}}},
    {"codes beside 22h and 24h wait", {QS_IMAGE_WAITING, 4, {0x21, 0x23, 0x25, 0}}},
    {"locked", {QS_IMAGE_LOCKED, 1, {1}}},
    {"longer", {QS_IMAGE_LONGER, 1, {1}}},
    {"a parity fault", {QS_IMAGE_PARITY, 1, {1}}},
    {"the last tick FFFFFFFFh", {QS_IMAGE_LAST, 4, {0xFF, 0xFF, 0xFF, 0xFF}}},
    {"a sum of FFh", {QS_IMAGE_SUM, 1, {255}}},
    {"135 bytes kept", {QS_IMAGE_KEPT_NUMBER, 1, {QS_KEPT_BYTES}}},
    {"no byte kept", {QS_IMAGE_KEPT_NUMBER, 1, {0}}},
};

static void start_with(struct plate p, struct bytes image, uint8_t open) {
    start(p);
    lent.image[QS_IMAGE_OPEN] = open;
    set(lent.image, image);
}

/* Each with no frame open and with one. */
static void test_damaged_images(void) {
    struct lengths none = {QS_IMAGE_LENGTH, 0, 0};
    for (unsigned long i = 0; i < 2 * COUNT(DAMAGED); i++) {
        start_with(EIGHT, DAMAGED[i / 2].image, i % 2);
        all_refuse(right(EIGHT), QS_R1, DAMAGED[i / 2].name, i);
        all_refuse(none, QS_R1, DAMAGED[i / 2].name, i);
    }
    for (unsigned long i = 0; i < 2 * COUNT(EXTREME); i++) {
        start_with(EIGHT, EXTREME[i / 2].image, i % 2);
        all_take(EIGHT, EXTREME[i / 2].name, i);
    }
}

/* The image's head: another layout number, or a plate number that is not possible, is R1 for every call, whatever else is lent. */
static void test_heads(void) {
    static const uint8_t places[] = {QS_IMAGE_TOTAL, QS_IMAGE_BITS, QS_IMAGE_PLATE_ADDRESS, QS_IMAGE_TICKS, QS_IMAGE_PAUSE, QS_IMAGE_LAYOUT};
    for (uint32_t i = 0; i < COUNT(places) * 256; i++) {
        uint32_t which = i / 256, value = i % 256;
        struct plate p = which == NUMBERS ? EIGHT : with_number(EIGHT, (int)which, value);
        bool taken = which == NUMBERS ? value == QS_LAYOUT_NUMBER : possible(p);
        start(EIGHT);
        lent.image[places[which]] = (uint8_t)value;
        if (taken) {
            memset(lent.memory, 0, QS_MEMORY_LENGTH(p.total));
            all_take(p, "a possible head", i);
            continue;
        }
        all_refuse(right(EIGHT), QS_R1, "R1 for a head", i);
        if (p.total <= 112)
            all_refuse(right(p), QS_R1, "R1 for a head with its memory", i);
        all_refuse((struct lengths){QS_IMAGE_LENGTH, QS_MEMORY_LENGTH(8) - 1, QS_REPLY_ROOM - 1}, QS_R1, "R1 for a head before R2 and R3", i);
        all_refuse((struct lengths){QS_IMAGE_LENGTH, QS_MEMORY_LENGTH(8), 0}, QS_R1, "R1 for a head before R3", i);
        all_refuse((struct lengths){QS_IMAGE_LENGTH, 0, 0}, QS_R1, "R1 for a head before R2 and R3", i);
        all_refuse((struct lengths){0, 0, 0}, QS_R1, "R1 for a head and no image", i);
    }
}

/* The memory's length is by the plate that the image holds: every other number of blocks is R2. */
static void test_memory_by_plate(void) {
    for (uint32_t total = 1; total <= 112; total++) {
        struct plate p = with_number(EIGHT, BLOCKS, total);
        start(p);
        for (uint32_t blocks = 0; blocks <= 112; blocks++) {
            struct lengths n = {QS_IMAGE_LENGTH, QS_MEMORY_LENGTH(blocks), QS_REPLY_ROOM};
            if (blocks != total)
                all_refuse(n, QS_R2, "memory of another plate", total * 1000 + blocks);
        }
        for (uint32_t more = 1; more <= 17; more += 16) {
            all_refuse((struct lengths){QS_IMAGE_LENGTH, QS_MEMORY_LENGTH(total) + more, QS_REPLY_ROOM}, QS_R2, "memory too long", total);
            all_refuse((struct lengths){QS_IMAGE_LENGTH, QS_MEMORY_LENGTH(total) - more, 0}, QS_R2, "memory too short", total);
        }
        all_refuse((struct lengths){QS_IMAGE_LENGTH, QS_MEMORY_LENGTH(total), QS_REPLY_ROOM - 1}, QS_R3, "a room too short", total);
        all_take(p, "the plate's memory", total);
    }
}

/* 02, "Req 01": the address joins the state, limits 0 to 31, whatever the plate's is, and whatever the counter before it. */
static void test_address_limits(void) {
    for (uint32_t i = 0; i < 4 * 256; i++) {
        struct plate p = i % 2 ? LAST_ADDRESS : EIGHT;
        for (uint8_t open = 0; open < 2; open++) {
            start_with(p, (struct bytes){QS_IMAGE_ADDRESS, 1, {(uint8_t)(i / 4)}}, open);
            memset(lent.image + QS_IMAGE_COUNTER, i / 2 % 2 ? 0xFF : 0, QS_IMAGE_COUNTER_SIZE);
            if (i / 4 < 32) {
                all_take(p, "an address in force", i);
                continue;
            }
            all_refuse(right(p), QS_R1, "an address over 31", i);
            all_refuse((struct lengths){QS_IMAGE_LENGTH, QS_MEMORY_LENGTH(p.total) - 1, 0}, QS_R1, "an address over 31 before R2 and R3", i);
        }
    }
}

static struct bytes offset_of(uint32_t value) {
    return (struct bytes){QS_IMAGE_OFFSET, 4, {(uint8_t)value, (uint8_t)(value >> 8), (uint8_t)(value >> 16), (uint8_t)(value >> 24)}};
}

/* 01, "offset below 2^P". */
static void test_offset_limits(void) {
    for (uint32_t bits = 1; bits <= 32; bits++) {
        struct plate p = with_number(EIGHT, BITS, bits);
        uint32_t last = UINT32_MAX >> (32 - bits);
        start_with(p, offset_of(last), 0);
        all_take(p, "the largest offset", bits);
        if (bits == 32)
            continue;
        start_with(p, offset_of(last + 1), 0);
        all_refuse(right(p), QS_R1, "an offset over the largest", bits);
    }
}

/* 01, "Named refusals": R1 to R3 in that order. How many bytes more or less than the right number are lent; NONE leaves none. */
enum { NONE = -10000 };

static const struct {
    const char *name;
    int image, memory, room;
    uint64_t refusal;
} SIZES[] = {
    {"image a byte short: 134 places for kept bytes", -1, 0, 0, QS_R1},
    {"image a byte too long: 136 places for kept bytes", 1, 0, 0, QS_R1},
    {"image without a head", -QS_IMAGE_LASTING, 0, 0, QS_R1},
    {"image without a label", -QS_LABEL_LENGTH, 0, 0, QS_R1},
    {"image without the kept bytes", -QS_KEPT_BYTES, 0, 0, QS_R1},
    {"image much too long", SPARE, 0, 0, QS_R1},
    {"no image", NONE, 0, 0, QS_R1},
    {"all a byte short: R1 before R2 and R3", -1, -1, -1, QS_R1},
    {"all a byte too long: R1 before R2", 1, 1, 1, QS_R1},
    {"nothing lent: R1 before R2 and R3", NONE, NONE, NONE, QS_R1},
    {"memory a byte short", 0, -1, 0, QS_R2},
    {"memory a byte too long", 0, 1, 0, QS_R2},
    {"memory a block short", 0, -17, 0, QS_R2},
    {"memory a block too long", 0, 17, 0, QS_R2},
    {"memory of 112 blocks", 0, 104 * 17, 0, QS_R2},
    {"no memory", 0, NONE, 0, QS_R2},
    {"memory and room a byte short: R2 before R3", 0, -1, -1, QS_R2},
    {"memory a byte too long, no room: R2 before R3", 0, 1, NONE, QS_R2},
    {"neither memory nor room: R2 before R3", 0, NONE, NONE, QS_R2},
    {"room a byte short", 0, 0, -1, QS_R3},
    {"room for three bytes", 0, 0, 3 - QS_REPLY_ROOM, QS_R3},
    {"no room", 0, 0, NONE, QS_R3},
    {"the right sizes", 0, 0, 0, 0},
    {"room a byte larger", 0, 0, 1, 0},
    {"room much larger", 0, 0, SPARE, 0},
};

static uint64_t sized(uint64_t right_size, int more) {
    return more == NONE ? 0 : right_size + (uint64_t)(int64_t)more;
}

/* A board whose every number is as large as it may be, so that no refusal is for want of a frame; with none open and with one. */
static void start_full(struct plate p, uint8_t open) {
    static const struct bytes full[] = {
        FULL_COUNTER,
        {QS_IMAGE_ADDRESS, 1, {31}},
        {QS_IMAGE_OFFSET, 3, {0xFF, 0xFF, 0xFF}},
        {QS_IMAGE_WAITING, 5, {1, 2, 3, 4, 1}},
        {QS_IMAGE_KEPT_NUMBER, 1, {QS_KEPT_BYTES}},
    };
    start(p);
    lent.image[QS_IMAGE_OPEN] = open;
    for (size_t i = 0; i < COUNT(full); i++)
        set(lent.image, full[i]);
}

static void test_sizes(void) {
    for (unsigned long i = 0; i < 2 * COUNT(SIZES); i++) {
        size_t row = i / 2;
        struct lengths r = right(EIGHT), n = {sized(r.image, SIZES[row].image), sized(r.memory, SIZES[row].memory), sized(r.room, SIZES[row].room)};
        start_full(EIGHT, i % 2);
        if (SIZES[row].refusal != 0) {
            all_refuse(n, SIZES[row].refusal, SIZES[row].name, i);
            continue;
        }
        remember();
        check(poll_with(n, now) < QS_REFUSED && guards_stand(n), SIZES[row].name, i);
    }
}

/* ---- frames --------------------------------------------------------------------------------------------------------------------------------------------- */

/* Bytes from hex pairs, with their checksum behind. */
static size_t sealed(const char *hex, uint8_t *bytes) {
    size_t n = 0;
    unsigned value;
    int used;
    while (sscanf(hex, "%2x%n", &value, &used) == 1) {
        bytes[n++] = (uint8_t)value;
        hex += used;
    }
    if (n > 0) {
        bytes[n] = xor_of(bytes, n);
        n++;
    }
    return n;
}

/* Sends the characters one tick apart, which never closes, then polls one tick early and in time. The reply's length; it stands in lent.room. */
static uint64_t send_characters(struct plate p, const uint8_t *bytes, size_t n, size_t faulty) {
    memset(lent.room, ROOM_BYTE, sizeof lent.room);
    for (size_t i = 0; i < n; i++) {
        remember();
        uint64_t result = character_with(right(p), ++now, bytes[i], i == faulty ? 255 : 0);
        check(result == 0 && guards_stand(right(p)), "a character that closes nothing is silent", i);
        check(memcmp(lent.memory, before.memory, sizeof lent.memory) == 0 && memcmp(lent.room, before.room, sizeof lent.room) == 0,
              "a character that closes nothing leaves memory and room", i);
    }
    now += p.pause * p.ticks - 1;
    remember();
    check(poll_with(right(p), now) == 0 && as_it_was(), "a poll that comes early does nothing", n);
    uint64_t length = poll_with(right(p), ++now);
    check(length < QS_REFUSED && guards_stand(right(p)), "the poll in time is not refused", n);
    for (size_t i = length; i < sizeof lent.room; i++)
        check(lent.room[i] == ROOM_BYTE, "the room behind the reply is as it was", i);
    return length;
}

static bool replies(struct plate p, const uint8_t *bytes, size_t n, size_t faulty, const char *reply) {
    uint8_t expected[QS_REPLY_ROOM + 1];
    size_t expected_length = sealed(reply, expected);
    return send_characters(p, bytes, n, faulty) == expected_length && memcmp(lent.room, expected, expected_length) == 0;
}

enum { NONE_FAULTY = 1 << 30 };

/* Request and reply without their checksums; "" is silence. */
static void asks(struct plate p, const char *request, const char *reply, const char *name) {
    uint8_t bytes[QS_REQUEST_BUFFER];
    size_t n = sealed(request, bytes);
    checks++;
    if (replies(p, bytes, n, NONE_FAULTY, reply))
        return;
    failures++;
    printf(PROGRAM ": FAILED: %s: %s is not answered with %s\n", name, request, reply[0] ? reply : "silence");
}

/* What is done with a board, line by line: a request and its reply, or a call of the host that returns 0: "fault 22", "measured FF000005", "power-on". */
struct line {
    const char *said, *reply;
};

enum { LINES = 36 };

/* A fresh board but for what is set in its image; what image and memory hold after the lines. */
struct trial {
    const char *name;
    const struct plate *plate;
    struct bytes set[2];
    struct line lines[LINES];
    struct bytes left, stored;
};

static const struct trial TRIALS[] = {
    /* 01, "counter + 1; from FFFFFFh it goes to 0 and 08h is queued". */
    {.name = "bench sheet: the counter at FFFFFFh", .plate = &SHEET, .set = {FULL_COUNTER},
     .lines = {{"40 47", "40 C7"}, {"40 50", "40 50 08"}}},
    {.name = "the counter at FFFFFFh is read, steps to 0 and warns", .plate = &SHEET, .set = {FULL_COUNTER},
     .lines = {{"40 46", "40 46 FF FF FF"}, {"40 47", "40 C7"}, {"40 46", "40 C6 00 00 00"}, {"40 4E", "40 CE 70 00"}, {"40 50", "40 50 08"},
               {"40 50", "40 50 00"}}},
    {.name = "the counter from 0", .plate = &SHEET,
     .lines = {{"40 46", "40 46 00 00 00"}, {"40 47", "40 47"}, {"40 46", "40 46 00 00 01"}, {"40 49 54", "40 50 0F"}, {"40 49 55", "40 49"},
               {"40 46", "40 46 00 00 00"}}},
    {.name = "the counter a step below FFFFFFh", .plate = &SHEET, .set = {{QS_IMAGE_COUNTER, QS_IMAGE_COUNTER_SIZE, {0xFE, 0xFF, 0xFF}}},
     .lines = {{"40 47", "40 47"}, {"40 46", "40 46 FF FF FF"}, {"40 49 54", "40 50 0F"}, {"40 49 55", "40 49"}, {"40 46", "40 46 00 00 00"}}},
    /* 01, "one already waiting, or a fifth, is dropped". */
    {.name = "the counter at FFFFFFh, four codes wait: 08h is dropped", .plate = &SHEET,
     .set = {FULL_COUNTER, {QS_IMAGE_WAITING, 4, {1, 2, 3, 4}}},
     .lines = {{"40 47", "40 C7"}, {"40 46", "40 C6 00 00 00"}, {"40 50", "40 D0 01"}, {"40 50", "40 D0 02"}, {"40 50", "40 D0 03"}, {"40 50", "40 50 04"},
               {"40 50", "40 50 00"}}},
    {.name = "the counter at FFFFFFh, 08h waits: it keeps its place", .plate = &SHEET,
     .set = {FULL_COUNTER, {QS_IMAGE_WAITING, 2, {8, 5}}},
     .lines = {{"fault 00", ""}, {"40 47", "40 C7"}, {"40 44", "40 D0 0B"}, {"40 50", "40 D0 08"}, {"40 50", "40 50 05"}, {"40 50", "40 50 00"}}},
    {.name = "the counter at FFFFFFh, four codes wait, 08h last", .plate = &SHEET,
     .set = {FULL_COUNTER, {QS_IMAGE_WAITING, 4, {1, 2, 3, 8}}},
     .lines = {{"40 47", "40 C7"}, {"40 50", "40 D0 01"}, {"40 50", "40 D0 02"}, {"40 50", "40 D0 03"}, {"40 50", "40 50 08"}, {"40 50", "40 50 00"}}},
    {.name = "codes that wait are read in their order", .plate = &SHEET, .set = {{QS_IMAGE_WAITING, 4, {9, 3, 7, 1}}},
     .lines = {{"40 50", "40 D0 09"}, {"fault 09", ""}, {"fault 03", ""}, {"40 50", "40 D0 03"}, {"40 50", "40 D0 07"}},
     .left = {QS_IMAGE_WAITING, 4, {1, 9, 0, 0}}},
    {.name = "four codes wait, a fifth is dropped, 22h locks", .plate = &SHEET,
     .lines = {{"fault 00", ""}, {"fault 31", ""}, {"fault 32", ""}, {"fault 31", ""}, {"fault 33", ""}, {"fault 34", ""}, {"fault 35", ""}, {"fault 22", ""},
               {"40 42", "40 D0 02"}, {"40 43 00 00 00 02 54", "40 D0 02"}},
     .left = {QS_IMAGE_WAITING, 5, {0x31, 0x32, 0x33, 0x34, 1}}},
    {.name = "53h empties the queue and leaves the lock", .plate = &SHEET, .set = {{QS_IMAGE_WAITING, 5, {0x31, 0x32, 0x33, 0x34, 1}}},
     .lines = {{"40 50", "40 D0 31"}, {"40 53", ""}, {"40 42", "40 50 02"}, {"40 53 00", "40 50 0C"}}, .left = {QS_IMAGE_WAITING, 5, {0, 0, 0, 0, 1}}},
    {.name = "power-on unlocks; offset is reduced, measured kept as given", .plate = &SHEET, .set = {{QS_IMAGE_LOCKED, 1, {1}}},
     .lines = {{"40 42", "40 50 02"}, {"power-on", ""}, {"measured FF000005", ""}, {"40 42", "40 42 00 00 00 05"}, {"40 43 00 00 00 02 54", "40 50 0F"},
               {"40 43 01 00 00 00 55", "40 50 0D"}, {"40 43 00 00 00 02 55", "40 43"}, {"40 42", "40 42 00 00 00 02"}},
     .left = {QS_IMAGE_OFFSET, 8, {0xFD, 0xFF, 0xFF, 0, 5, 0, 0, 0xFF}}},
    {.name = "codes", .plate = &SHEET,
     .lines = {{"40 4F 04 55 66", "40 50 0D"}, {"40 4F 03 54 66", "40 50 0F"}, {"40 4F 03 55 66", "40 4F 03"}, {"40 4D 00 F0 55", "40 50 0F"},
               {"40 4D 00 F0 66", "40 4D 00 F0"}, {"40 4D 00 C0 55", "40 50 0F"}, {"40 4D 00 C0 66", "40 4D 00 C0"}, {"40 4F 00 55 77", "40 4F 00"},
               {"40 49 55", "40 50 0F"}, {"40 49 77", "40 49"}, {"40 43 00 00 00 02 55", "40 50 0F"}, {"40 43 00 00 00 02 77", "40 43"}},
     .left = {QS_IMAGE_CODES, 4, {0x77, 0x55, 0x55, 0x66}}},
    {.name = "fields", .plate = &EIGHT,
     .lines = {{"40 4E", "40 4E 08 00"}, {"40 4C 00", "40 50 12"}, {"40 4D 01 C0 55", "40 50 12"}, {"40 4D 00 40 55", "40 50 12"},
               {"40 4D FF C0 55", "40 50 12"}, {"40 4D 00 C7 54", "40 50 0F"}, {"40 4D 00 C7 55", "40 4D 00 C7"}, {"40 4D 01 C0 55", "40 50 10"},
               {"40 4D 00 C1 55", "40 4D 00 C1"}, {"40 4E", "40 4E 06 01"}, {"40 4D 01 C6 55", "40 50 10"}, {"40 4D 01 C5 55", "40 4D 01 C5"},
               {"40 4D 00 C0 55", "40 50 10"},
               {"40 4D 00 00 55", "40 50 0D"}, {"40 4D 00 41 55", "40 50 10"}, {"40 4D 00 89 55", "40 4D 00 89"}, {"40 4C 00", "40 4C 00 89"}, {"40 4B 00 00 01 54 AA", "40 50 0F"},
               {"40 4B 00 00 01 55 AA", "40 50 0E"}, {"40 4B 01 5E 02 00 AA BB", "40 4B 01 5E 02"}, {"40 4B 01 5F 02 00 AA BB", "40 50 11"},
               {"40 4A 01 5D 03 00", "40 4A 01 5D 03 00 AA BB"}, {"40 4A 01 FF 80 00", "40 50 11"}, {"40 4A 01 00 00 00", "40 50 0D"},
               {"40 4A 01 00 81 00", "40 50 0D"}, {"40 4A 00 00 00 54", "40 50 0F"}, {"40 4A 02 00 01 55", "40 50 12"}, {"40 4D 01 7F 55", "40 50 0D"},
               {"40 4D 01 45 55", "40 4D 01 45"},
               {"40 4E", "40 4E 06 01"}, {"40 4D 01 C3 55", "40 4D 01 C3"}, {"40 4D 01 C6 55", "40 50 10"}, {"40 4D 01 C5 55", "40 4D 01 C5"},
               {"40 4D 01 C6 55", "40 50 10"}}},
    /* 02, "Req 02": 0Dh when bits 0 to 6 differ from the stored ones, after 0Fh and before 10h. */
    {.name = "a deletion names the stored status: 12h, 0Fh, 0Dh, 10h", .plate = &EIGHT,
     .lines = {{"40 4D 00 C9 55", "40 4D 00 C9"}, {"40 4D 01 A8 55", "40 4D 01 A8"}, {"40 4D 02 00 54", "40 50 12"}, {"40 4D 02 28 55", "40 50 12"},
               {"40 4D 00 00 54", "40 50 0F"}, {"40 4D 00 49 54", "40 50 0F"}, {"40 4D 00 00 55", "40 50 0D"}, {"40 4D 00 09 55", "40 50 0D"},
               {"40 4D 00 28 55", "40 50 0D"}, {"40 4D 00 49 55", "40 50 10"}, {"40 4D 01 68 55", "40 50 0D"}, {"40 4D 01 49 55", "40 50 0D"},
               {"40 4D 01 28 54", "40 50 0F"}, {"40 4E", "40 4E 05 02"}, {"40 4D 01 28 55", "40 4D 01 28"}, {"40 4D 01 28 55", "40 50 12"},
               {"40 4D 00 28 55", "40 50 0D"}, {"40 4D 00 49 55", "40 4D 00 49"}, {"40 4E", "40 4E 08 00"}}},
    {.name = "after a modify its status is the one that a deletion names", .plate = &EIGHT,
     .lines = {{"40 4D 00 C9 55", "40 4D 00 C9"}, {"40 4D 00 89 55", "40 4D 00 89"}, {"40 4D 00 49 55", "40 50 0D"}, {"40 4D 00 09 55", "40 4D 00 09"},
               {"40 4D 00 C9 55", "40 4D 00 C9"}, {"40 4D 00 CC 55", "40 4D 00 CC"}, {"40 4D 00 49 55", "40 50 0D"}, {"40 4D 00 C8 55", "40 4D 00 C8"},
               {"40 4D 00 4C 55", "40 50 0D"}, {"40 4D 00 E8 55", "40 4D 00 E8"}, {"40 4D 00 48 55", "40 50 0D"}, {"40 4D 00 68 55", "40 4D 00 68"}}},
    {.name = "a deletion's code is the one that the stored status names", .plate = &EIGHT, .set = {{QS_IMAGE_CODES, 4, {0x11, 0x22, 0x33, 0x44}}},
     .lines = {{"40 4D 00 E0 33", "40 4D 00 E0"}, {"40 4D 00 40 11", "40 50 0F"}, {"40 4D 00 60 11", "40 50 0F"}, {"40 4D 00 40 33", "40 50 0D"},
               {"40 4D 00 60 33", "40 4D 00 60"}}},
    {.name = "a deletion while a code waits", .plate = &EIGHT, .set = {{QS_IMAGE_WAITING, 1, {0x31}}},
     .lines = {{"40 4D 00 C0 55", "40 CD 00 C0"}, {"40 4D 00 41 55", "40 D0 0D"}, {"40 4D 00 40 55", "40 CD 00 40"}}},
    {.name = "002's example: field 1 lies behind the two blocks of field 0", .plate = &EIGHT,
     .lines = {{"40 4E", "40 4E 08 00"}, {"40 4D 00 C9 55", "40 4D 00 C9"}, {"40 4D 01 E0 55", "40 4D 01 E0"}, {"40 4F 02 55 66", "40 4F 02"},
               {"40 4B 01 05 02 66 08 15", "40 4B 01 05 02"}},
     .stored = {0x20, 16, {0, 0, 0, 0, 0, 8, 0x15}}},
    {.name = "a store over a block's end", .plate = &EIGHT, .lines = {{"40 4D 00 C1 55", "40 4D 00 C1"}, {"40 4B 00 0F 02 55 01 02", "40 4B 00 0F 02"}},
     .stored = {0x0E, 4, {0, 1, 2, 0}}},
    {.name = "T = 1", .plate = &ONE_BLOCK,
     .lines = {{"40 4D 00 C1 55", "40 50 10"}, {"40 4D 00 C0 55", "40 4D 00 C0"}, {"40 4D 01 C0 55", "40 50 10"}, {"40 4E", "40 4E 00 01"},
               {"40 4A 00 0F 01 00", "40 4A 00 0F 01 00"}}},
    {.name = "address 31", .plate = &LAST_ADDRESS,
     .lines = {{"5F 4E", "5F 4E 70 00"}, {"FF 4E", "5F 4E 70 00"}, {"40 4E", ""}, {"7F 4E", ""}, {"DF 4E", ""}, {"5F C2", "5F 50 0B"}, {"5F 44", "5F 50 0B"},
               {"5F 42 00", "5F 50 0C"}, {"5F 4B 00 00", "5F 50 0C"}, {"5F 4B 00 00 02 55 AA", "5F 50 0C"}, {"5F 4B 00 00 00 55", "5F 50 0C"}}},
    /* 000, "Set Encoder Address": "the Slave response message will already use the new Slave address". */
    {.name = "55h: the reply carries the new address, and the old one is another's", .plate = &SHEET,
     .lines = {{"40 55 45 55", "45 55"}, {"40 4E", ""}, {"40 55 46 55", ""}, {"45 4E", "45 4E 70 00"}, {"FF 4E", "45 4E 70 00"}, {"45 44", "45 50 0B"}},
     .left = {QS_IMAGE_ADDRESS, 1, {5}}},
    /* 02, "Req 01": 0Fh, then 0Dh, both after step 6; in an error reply the old address. */
    {.name = "55h: 0Ch before 0Fh before 0Dh, with the old address", .plate = &SHEET, .set = {{QS_IMAGE_ADDRESS, 1, {2}}},
     .lines = {{"42 55", "42 50 0C"}, {"42 55 45", "42 50 0C"}, {"42 55 60", "42 50 0C"}, {"42 55 45 55 55", "42 50 0C"}, {"42 55 60 54 55", "42 50 0C"},
               {"42 55 45 54", "42 50 0F"}, {"42 55 60 54", "42 50 0F"}, {"42 55 55 45", "42 50 0F"}, {"42 55 60 55", "42 50 0D"}, {"42 55 3F 55", "42 50 0D"},
               {"42 55 05 55", "42 50 0D"}, {"42 55 C5 55", "42 50 0D"}, {"42 55 FF 55", "42 50 0D"}, {"42 55 00 55", "42 50 0D"}, {"42 4E", "42 4E 70 00"}},
     .left = {QS_IMAGE_ADDRESS, 1, {2}}},
    {.name = "55h by broadcast: new address, or an error with the old one", .plate = &SHEET,
     .lines = {{"FF 55 5F 55", "5F 55"}, {"FF 55 60 55", "5F 50 0D"}, {"FF 55 40 54", "5F 50 0F"}, {"FF 55 40", "5F 50 0C"}, {"40 4E", ""},
               {"5F 4E", "5F 4E 70 00"}, {"FF 55 40 55", "40 55"}, {"5F 4E", ""}, {"40 4E", "40 4E 70 00"}},
     .left = {QS_IMAGE_ADDRESS, 1, {0}}},
    {.name = "55h wants Code0 as it is now", .plate = &SHEET, .set = {{QS_IMAGE_CODES, 4, {0x11, 0x22, 0x33, 0x44}}},
     .lines = {{"40 55 41 55", "40 50 0F"}, {"40 55 41 22", "40 50 0F"}, {"40 55 41 44", "40 50 0F"}, {"40 55 41 11", "41 55"}, {"41 4F 00 11 66", "41 4F 00"},
               {"41 55 42 11", "41 50 0F"}, {"41 55 42 66", "42 55"}},
     .left = {QS_IMAGE_ADDRESS, 1, {2}}},
    {.name = "55h with the address in force", .plate = &SHEET,
     .lines = {{"40 55 40 55", "40 55"}, {"40 4E", "40 4E 70 00"}, {"FF 55 40 55", "40 55"}, {"40 55 40 54", "40 50 0F"}}, .left = {QS_IMAGE_ADDRESS, 1, {0}}},
    {.name = "55h to another board changes nothing", .plate = &SHEET,
     .lines = {{"41 55 45 55", ""}, {"45 55", ""}, {"00 55 45 55", ""}, {"60 55 45 55", ""}, {"45 4E", ""}, {"40 4E", "40 4E 70 00"}},
     .left = {QS_IMAGE_ADDRESS, 1, {0}}},
    /* 01, "Power-on ..; all else stays"; 000, "Slave address .. not changed by an Encoder Reset". */
    {.name = "the address outlives power-on and 53h", .plate = &LAST_ADDRESS,
     .lines = {{"5F 55 47 55", "47 55"}, {"power-on", ""}, {"47 4E", "47 4E 70 00"}, {"5F 4E", ""}, {"47 53", ""}, {"47 4E", "47 4E 70 00"}, {"5F 4E", ""},
               {"fault 22", ""}, {"measured 00000005", ""}, {"47 42", "47 50 02"}, {"power-on", ""}, {"47 42", "47 42 00 00 00 05"}},
     .left = {QS_IMAGE_ADDRESS, 1, {7}}},
    {.name = "the plate's address is not looked at", .plate = &LAST_ADDRESS, .set = {{QS_IMAGE_ADDRESS, 1, {3}}},
     .lines = {{"5F 4E", ""}, {"5F 55 41 55", ""}, {"43 4E", "43 4E 70 00"}, {"43 44", "43 50 0B"}, {"43 55 5F 55", "5F 55"}, {"5F 4E", "5F 4E 70 00"}},
     .left = {QS_IMAGE_PLATE_ADDRESS, 1, {31}}},
    {.name = "label, version and address while codes wait", .plate = &SHEET, .set = {{QS_IMAGE_WAITING, 2, {0x31, 0x32}}},
     .lines = {{"40 52", "40 D2 " TYPE_LABEL}, {"40 56", "40 D6 " VERSION_LABEL}, {"40 55 45 55", "45 D5"}, {"45 55 60 55", "45 D0 0D"},
               {"45 55 40 54", "45 D0 0F"}, {"45 55", "45 D0 0C"}, {"45 52 00", "45 D0 0C"}, {"45 56 00", "45 D0 0C"}},
     .left = {QS_IMAGE_WAITING, 4, {0x31, 0x32, 0, 0}}},
    /* 000, tables 28 and 31. */
    {.name = "52h and 56h tell the label", .plate = &SHEET,
     .lines = {{"40 52", "40 52 " TYPE_LABEL}, {"40 56", "40 56 " VERSION_LABEL}, {"FF 52", "40 52 " TYPE_LABEL}, {"FF 56", "40 56 " VERSION_LABEL},
               {"40 52 00", "40 50 0C"}, {"40 56 00", "40 50 0C"}, {"40 52 00 55", "40 50 0C"}, {"40 56 00 55", "40 50 0C"}, {"41 52", ""}, {"41 56", ""},
               {"40 55 5F 55", "5F 55"}, {"5F 52", "5F 52 " TYPE_LABEL}, {"5F 56", "5F 56 " VERSION_LABEL}, {"FF 56", "5F 56 " VERSION_LABEL}}},
    {.name = "52h, 55h and 56h while the position is locked", .plate = &SHEET, .set = {{QS_IMAGE_LOCKED, 1, {1}}},
     .lines = {{"40 42", "40 50 02"}, {"40 52", "40 52 " TYPE_LABEL}, {"40 56", "40 56 " VERSION_LABEL}, {"40 55 45 55", "45 55"}, {"45 42", "45 50 02"}},
     .left = {QS_IMAGE_LOCKED, 1, {1}}},
    {.name = "the commands beside them are unknown", .plate = &SHEET,
     .lines = {{"40 51", "40 50 0B"}, {"40 54", "40 50 0B"}, {"40 57", "40 50 0B"}, {"40 57 E4 55", "40 50 0B"}, {"40 D2", "40 50 0B"},
               {"40 D5 45 55", "40 50 0B"}, {"40 D6", "40 50 0B"}, {"40 12", "40 50 0B"}, {"40 15 45 55", "40 50 0B"}, {"40 44", "40 50 0B"}},
     .left = {QS_IMAGE_ADDRESS, 1, {0}}},
};

/* One line of a trial. */
static void works(struct plate p, struct line l, const char *name) {
    unsigned number;
    if (sscanf(l.said, "fault %x", &number) == 1)
        check(fault_with(right(p), (uint8_t)number) == 0, name, number);
    else if (sscanf(l.said, "measured %x", &number) == 1)
        check(measured_with(right(p), number) == 0, name, number);
    else if (strcmp(l.said, "power-on") == 0)
        check(power_on_with(right(p)) == 0, name, 0);
    else
        asks(p, l.said, l.reply, name);
}

static void test_trials(void) {
    for (size_t i = 0; i < COUNT(TRIALS); i++) {
        const struct trial *t = &TRIALS[i];
        start(*t->plate);
        for (size_t j = 0; j < COUNT(t->set); j++)
            set(lent.image, t->set[j]);
        for (size_t j = 0; j < LINES && t->lines[j].said != NULL; j++)
            works(*t->plate, t->lines[j], t->name);
        if (t->left.size > 0)
            check(holds(lent.image, t->left), t->name, t->left.place);
        if (t->stored.size > 0)
            check(holds(lent.memory, t->stored), t->name, t->stored.place);
    }
}

/* Every front part of the longest store: silence under 3 bytes, else a wrong checksum or a wrong length; memory stays as it was. */
static void test_cut_frames(void) {
    uint8_t frame[QS_REQUEST_BUFFER] = {0x40, 0x4B, 0, 0, 128, 0x55};
    for (uint8_t i = 6; i < QS_REQUEST_BUFFER - 1; i++)
        frame[i] = (uint8_t)(i * 7);
    frame[QS_REQUEST_BUFFER - 1] = xor_of(frame, QS_REQUEST_BUFFER - 1);
    start(EIGHT);
    asks(EIGHT, "40 4D 00 C7 55", "40 4D 00 C7", "a field for the longest store");
    static uint8_t blank[QS_MEMORY_LENGTH(8)];
    memcpy(blank, lent.memory, sizeof blank);
    for (size_t n = 1; n < QS_REQUEST_BUFFER; n++) {
        const char *reply = n < 3 ? "" : xor_of(frame, n) != 0 ? "40 50 0A" : "40 50 0C";
        check(replies(EIGHT, frame, n, NONE_FAULTY, reply), "a cut frame", n);
        check(replies(EIGHT, frame, n, 0, n < 3 ? "" : "40 50 09"), "a cut frame with a parity fault", n);
        check(memcmp(lent.memory, blank, sizeof blank) == 0, "a cut frame stores nothing", n);
    }
    check(replies(EIGHT, frame, QS_REQUEST_BUFFER, NONE_FAULTY, "40 4B 00 00 80"), "the whole frame", 0);
    check(memcmp(lent.memory, frame + 6, 128) == 0, "stores its bytes", 0);
}

static void test_long_frames(void) {
    static uint8_t frame[65540];
    static const size_t sizes[] = {QS_KEPT_BYTES, QS_KEPT_BYTES + 1, 256, 258, 259, 65538, 65539};
    start(SHEET);
    for (size_t i = 0; i < COUNT(sizes); i++) {
        size_t n = sizes[i];
        memset(frame, 0, n);
        memcpy(frame, "\x40\x44", 2);
        frame[n - 1] = 0x04;
        check(replies(SHEET, frame, n, NONE_FAULTY, n > QS_KEPT_BYTES ? "40 50 0C" : "40 50 0B"), "a long frame", n);
        check(replies(SHEET, frame, n, n - 1, "40 50 09"), "a long frame whose last character has a parity fault", n);
        frame[n - 1] = 0x05;
        check(replies(SHEET, frame, n, NONE_FAULTY, "40 50 0A"), "a long frame with a wrong checksum", n);
        frame[0] = 0x41;
        check(replies(SHEET, frame, n, NONE_FAULTY, ""), "a long frame for another board", n);
    }
}

/* ---- the address ---------------------------------------------------------------------------------------------------------------------------------------- */

/* What is sent and what comes back, in bytes; a request that is for nobody here comes back with none. */
static void asks_bytes(struct plate p, const uint8_t *request, size_t n, const uint8_t *reply, size_t replied, const char *what, unsigned long number) {
    uint8_t sent[QS_REQUEST_BUFFER], expected[QS_REPLY_ROOM];
    memcpy(sent, request, n);
    sent[n] = xor_of(sent, n);
    memcpy(expected, reply, replied);
    expected[replied] = xor_of(expected, replied);
    uint64_t length = send_characters(p, sent, n + 1, NONE_FAULTY);
    check(length == (replied == 0 ? 0 : replied + 1), what, number);
    check(memcmp(lent.room, expected, length) == 0, what, number);
}

/* Whether a board is at this address byte: it tells its free blocks. */
static void is_there(struct plate p, uint8_t address, bool there, const char *what, unsigned long number) {
    const uint8_t request[] = {address, QS_MEMORY_STATUS}, reply[] = {address, QS_MEMORY_STATUS, (uint8_t)p.total, 0};
    asks_bytes(p, request, sizeof request, reply, there ? sizeof reply : 0, what, number);
}

enum { OLD = 0x47, GOOD_CODE = 0x55, WRONG_CODE = 0x54, EVERY_BOARD = 0xFF };

/* A 55h with this new address byte to a board at OLD. It changes the address and nothing else of image and memory, neither the counter before it nor the
 * offset behind it; an error changes nothing. */
static void new_address(uint8_t asked, uint8_t wanted, uint8_t code) {
    struct plate p = with_number(EIGHT, ADDRESS, OLD - 0x40);
    bool allowed = wanted >= 0x40 && wanted <= 0x5F, accepted = allowed && code == GOOD_CODE;
    const uint8_t request[] = {asked, QS_SET_ADDRESS, wanted, code}, good[] = {wanted, QS_SET_ADDRESS};
    const uint8_t error[] = {OLD, QS_READ_STATUS, code == GOOD_CODE ? QS_ERROR_WRONG_ARGUMENT : QS_ERROR_WRONG_CODE};
    start(p);
    memset(lent.image + QS_IMAGE_COUNTER, 0xFF, QS_IMAGE_COUNTER_SIZE);
    set(lent.image, offset_of(0xFFFFFF));
    struct lent whole = lent;
    asks_bytes(p, request, sizeof request, accepted ? good : error, accepted ? sizeof good : sizeof error, "a new address byte", wanted);
    if (accepted)
        whole.image[QS_IMAGE_ADDRESS] = wanted - 0x40;
    check(memcmp(whole.image, lent.image, QS_IMAGE_KEPT) == 0, "55h leaves all but the address", wanted);
    check(memcmp(whole.memory, lent.memory, sizeof whole.memory) == 0, "55h leaves memory", wanted);
    is_there(p, OLD, !accepted || wanted == OLD, "the old address afterwards", wanted);
    if (wanted != EVERY_BOARD)
        is_there(p, wanted, accepted || wanted == OLD, "the new address byte afterwards", wanted);
}

static void test_new_addresses(void) {
    for (uint32_t wanted = 0; wanted < 256; wanted++) {
        new_address(OLD, (uint8_t)wanted, GOOD_CODE);
        new_address(OLD, (uint8_t)wanted, WRONG_CODE);
        new_address(EVERY_BOARD, (uint8_t)wanted, GOOD_CODE);
        new_address(EVERY_BOARD, (uint8_t)wanted, (uint8_t)wanted == GOOD_CODE ? 0 : (uint8_t)wanted);
    }
}

/* Steps 2 to 4 come before: a 55h that is good but for its line changes nothing and is answered by the old address. */
static void test_faulty_new_addresses(void) {
    uint8_t frame[] = {0x40, QS_SET_ADDRESS, 0x45, GOOD_CODE, 0x05}, longer[QS_KEPT_BYTES + 1] = {0x40, QS_SET_ADDRESS, 0x45, GOOD_CODE};
    longer[QS_KEPT_BYTES] = 0x05;
    start(SHEET);
    for (size_t i = 0; i < sizeof frame; i++)
        check(replies(SHEET, frame, sizeof frame, i, "40 50 09"), "55h with a parity fault", i);
    check(replies(SHEET, longer, sizeof longer, NONE_FAULTY, "40 50 0C"), "55h in a frame too long", 0);
    frame[4] ^= 1;
    check(replies(SHEET, frame, sizeof frame, NONE_FAULTY, "40 50 0A"), "55h with a wrong checksum", 0);
    check(lent.image[QS_IMAGE_ADDRESS] == 0, "the address is the old one", 0);
}

/* A character closes a 55h: the reply is this call's, and the frame that it opens will be judged by the new address. */
static void closed_by(uint8_t next, const char *reply) {
    static const uint8_t frame[] = {0x40, QS_SET_ADDRESS, 0x45, GOOD_CODE, 0x05};
    uint8_t rest[] = {QS_MEMORY_STATUS, (uint8_t)(next ^ QS_MEMORY_STATUS)};
    start(SHEET);
    for (size_t i = 0; i < sizeof frame; i++)
        check(character_with(right(SHEET), ++now, frame[i], 0) == 0, "a 55h is sent", i);
    now += SHEET.pause * SHEET.ticks;
    check(character_with(right(SHEET), now, next, 0) == 3 && memcmp(lent.room, "\x45\x55\x10", 3) == 0, "a character closes a 55h", next);
    check(lent.image[QS_IMAGE_ADDRESS] == 5 && lent.image[QS_IMAGE_KEPT_NUMBER] == 1, "the address is new, the next frame open", next);
    check(replies(SHEET, rest, sizeof rest, NONE_FAULTY, reply), "the next frame is judged by the new address", next);
}

/* The host may write the state: a frame is judged by the address that is in force when it closes. */
static void test_address_at_the_close(void) {
    closed_by(0x45, "45 4E 70 00");
    closed_by(0x40, "");
    closed_by(0xFF, "45 4E 70 00");
    closed_by(0x46, "");
    static const uint8_t request[] = {0x41, QS_MEMORY_STATUS, 0x41 ^ QS_MEMORY_STATUS};
    for (uint8_t address = 0; address < 32; address++) {
        start(SHEET);
        for (size_t i = 0; i < sizeof request; i++)
            check(character_with(right(SHEET), ++now, request[i], 0) == 0, "a frame for address 1", i);
        lent.image[QS_IMAGE_ADDRESS] = address;
        check(poll_with(right(SHEET), now + SHEET.pause * SHEET.ticks) == (address == 1 ? 5u : 0u), "it is judged by the address at its end", address);
    }
}

/* ---- the counter ---------------------------------------------------------------------------------------------------------------------------------------- */

static void set_counter(uint8_t *image, uint32_t counter) {
    for (uint32_t i = 0; i < QS_IMAGE_COUNTER_SIZE; i++)
        image[QS_IMAGE_COUNTER + i] = (uint8_t)(counter >> 8 * i);
}

/* The board at OLD tells its counter; it warns where the overflow's code waits. */
static void tells_counter(uint32_t counter, uint8_t warning) {
    static const uint8_t request[] = {OLD, QS_READ_COUNTER};
    const uint8_t reply[] = {OLD, QS_READ_COUNTER | warning, (uint8_t)(counter >> 16), (uint8_t)(counter >> 8), (uint8_t)counter};
    asks_bytes(EIGHT, request, sizeof request, reply, sizeof reply, "46h, high byte first", counter);
}

/* Every call takes it. 46h tells it, 47h steps it, 49h clears it, and no other byte of the state changes: the address stands right behind it. */
static void counter_is_worked(uint32_t counter) {
    static const uint8_t increment[] = {OLD, QS_INCREMENT_COUNTER}, reset[] = {OLD, QS_RESET_COUNTER, GOOD_CODE};
    const uint32_t next = counter == 0xFFFFFF ? 0 : counter + 1;
    const uint8_t warning = next == 0 ? QS_WARNING_BIT : 0;
    const uint8_t incremented[] = {OLD, QS_INCREMENT_COUNTER | warning}, cleared[] = {OLD, QS_RESET_COUNTER | warning};
    start(EIGHT);
    lent.image[QS_IMAGE_ADDRESS] = OLD - 0x40;
    set_counter(lent.image, counter);
    struct lent whole = lent;
    all_take(EIGHT, "a counter", counter);
    tells_counter(counter, 0);
    asks_bytes(EIGHT, increment, sizeof increment, incremented, sizeof incremented, "47h", counter);
    set_counter(whole.image, next);
    whole.image[QS_IMAGE_WAITING] = next == 0 ? QS_ERROR_COUNTER_OVERFLOW : 0;
    check(memcmp(whole.image, lent.image, QS_IMAGE_KEPT) == 0, "47h leaves all but the counter and a code that waits", counter);
    tells_counter(next, warning);
    asks_bytes(EIGHT, reset, sizeof reset, cleared, sizeof cleared, "49h", counter);
    set_counter(whole.image, 0);
    check(memcmp(whole.image, lent.image, QS_IMAGE_KEPT) == 0, "49h leaves all but the counter", counter);
}

/* 01, "counter at most FFFFFFh": each of its bytes with each value, the other two 00h or FFh. */
static void test_counters(void) {
    for (uint32_t i = 0; i < 2 * QS_IMAGE_COUNTER_SIZE * 256; i++) {
        uint32_t shift = i / 256 % QS_IMAGE_COUNTER_SIZE * 8, others = i / 256 < QS_IMAGE_COUNTER_SIZE ? 0 : 0xFFFFFF;
        counter_is_worked((others & ~(0xFFu << shift)) | i % 256 << shift);
    }
}

/* ---- time ----------------------------------------------------------------------------------------------------------------------------------------------- */

static void open_frame(struct plate p, uint32_t first_tick) {
    static const uint8_t request[] = {0x40, 0x4E, 0x0E};
    start(p);
    for (uint32_t i = 0; i < 3; i++)
        check(character_with(right(p), first_tick + i, request[i], 0) == 0, "a frame is opened", i);
}

/* Whether the frame that ended at `last` is closed by a call at `tick`, and by the character the next one opened. */
static void closes_at(uint32_t last, uint32_t tick, bool closes) {
    open_frame(SHEET, last - 2);
    check(poll_with(right(SHEET), tick) == (closes ? 5u : 0u), "a poll closes or not", tick);
    check(lent.image[QS_IMAGE_OPEN] == (closes ? 0 : 1), "the frame is open or not", tick);
    open_frame(SHEET, last - 2);
    check(character_with(right(SHEET), tick, 0x77, 1) == (closes ? 5u : 0u), "a character closes or not", tick);
    check(lent.image[QS_IMAGE_KEPT_NUMBER] == (closes ? 1 : 4), "the character is kept in its frame", tick);
    check(lent.image[QS_IMAGE_SUM] == 0x77, "the sum is the frame's", tick);
    check(lent.image[QS_IMAGE_PARITY] == 1, "the parity fault is the new character's", tick);
}

static void test_gaps(void) {
    static const uint32_t ends[] = {1000, 2, 1, 0, UINT32_MAX, UINT32_MAX - 100, UINT32_MAX / 2};
    for (size_t i = 0; i < COUNT(ends); i++) {
        closes_at(ends[i], ends[i], false);
        closes_at(ends[i], ends[i] + 1, false);
        closes_at(ends[i], ends[i] + 219, false);
        closes_at(ends[i], ends[i] + 220, true);
        closes_at(ends[i], ends[i] + 100000, true);
        closes_at(ends[i], ends[i] - 1, true);
    }
}

/* ---- how long the host may sleep ------------------------------------------------------------------------------------------------------------------------ */

static uint64_t whole_poll(struct plate p, uint32_t tick) {
    struct lengths n = right(p);
    return qs_poll(lent.image, n.image, tick, lent.memory, n.memory, lent.room, n.room);
}

/* The numbers of a poll so many ticks after the last character, which came at `last`. */
static void sleeps(struct plate p, uint32_t last, uint32_t later, uint64_t reply, uint32_t sleep) {
    open_frame(p, last - 2);
    uint64_t result = whole_poll(p, last + later);
    check(QS_REPLY(result) == reply && QS_SLEEP(result) == sleep, "the reply and the sleep of a poll", later);
}

/* Frames of a pause of 220 ticks, of the longest one and of the shortest, at ticks round the wrap too; a clock that steps back by a tick, by half a round. */
static void test_sleeps(void) {
    static const struct plate LONGEST = {112, 24, 0, 64, 55}, SHORTEST = {112, 24, 0, 1, 22};
    static const uint32_t lasts[] = {1000, 2, 1, 0, UINT32_MAX, UINT32_MAX - 100, UINT32_MAX - 219, UINT32_MAX - 220, UINT32_MAX / 2};
    for (size_t i = 0; i < COUNT(lasts); i++) {
        sleeps(SHEET, lasts[i], 0, 0, 220);
        sleeps(SHEET, lasts[i], 1, 0, 219);
        sleeps(SHEET, lasts[i], 219, 0, 1);
        sleeps(SHEET, lasts[i], 220, 5, QS_NO_FRAME_OPEN);
        sleeps(SHEET, lasts[i], 221, 5, QS_NO_FRAME_OPEN);
        sleeps(SHEET, lasts[i], UINT32_MAX, 5, QS_NO_FRAME_OPEN);
        sleeps(SHEET, lasts[i], UINT32_MAX / 2 + 1, 5, QS_NO_FRAME_OPEN);
        sleeps(LONGEST, lasts[i], 0, 0, QS_LONGEST_SLEEP);
        sleeps(LONGEST, lasts[i], 3519, 0, 1);
        sleeps(LONGEST, lasts[i], 3520, 5, QS_NO_FRAME_OPEN);
        sleeps(SHORTEST, lasts[i], 0, 0, 22);
        sleeps(SHORTEST, lasts[i], 21, 0, 1);
        sleeps(SHORTEST, lasts[i], 22, 5, QS_NO_FRAME_OPEN);
    }
}

/* After any character the full pause: one that opens a frame, one that joins it, one that closes it and opens the next, one past the 135th. */
static void test_sleep_after_a_character(void) {
    struct lengths n = right(SHEET);
    start(SHEET);
    for (uint32_t i = 0; i < 140; i++) {
        uint32_t tick = UINT32_MAX - 1000 + 200 * i;
        uint64_t result = qs_character(lent.image, n.image, tick, 0x41, 0, lent.memory, n.memory, lent.room, n.room);
        check(QS_REPLY(result) == 0 && QS_SLEEP(result) == 220, "a character: the full pause", i);
    }
    open_frame(SHEET, 1000);
    uint64_t result = qs_character(lent.image, n.image, 1222, 0x41, 0, lent.memory, n.memory, lent.room, n.room);
    check(QS_REPLY(result) == 5 && QS_SLEEP(result) == 220, "a character that closes a frame: its reply and the full pause", 0);
    check(qs_power_on(lent.image, n.image) == 0 && QS_SLEEP(whole_poll(SHEET, 1223)) == QS_NO_FRAME_OPEN, "power-on drops the frame", 0);
}

/* A poll exactly as long after the answer's tick as it says closes the frame, one a tick earlier does not; what the host tells in between changes nothing. */
static void on_time(struct plate p, uint32_t last, uint32_t looked) {
    struct lengths n = right(p);
    open_frame(p, last - 2);
    uint32_t tick = last + looked, sleep = QS_SLEEP(whole_poll(p, tick));
    check(sleep == p.pause * p.ticks - looked, "what is left of the pause", looked);
    check(measured_with(n, tick) == 0 && fault_with(n, 0x1E) == 0, "a position and a fault in between", looked);
    check(QS_SLEEP(whole_poll(p, tick + sleep / 2)) == sleep - sleep / 2, "a poll in between", looked);
    check(QS_REPLY(whole_poll(p, tick + sleep - 1)) == 0 && lent.image[QS_IMAGE_OPEN] == 1, "a tick too early", looked);
    check(QS_REPLY(whole_poll(p, tick + sleep)) == 5 && lent.image[QS_IMAGE_OPEN] == 0, "on time", looked);
}

static void test_sleep_on_time(void) {
    for (uint32_t ticks = 1; ticks <= 64; ticks *= 2) {
        for (uint32_t pause = 22; pause <= 55; pause += 33) {
            for (uint32_t looked = 0; looked < pause * ticks; looked += 1 + below(2 * ticks))
                on_time((struct plate){112, 24, 0, ticks, pause}, once_in(2) ? (uint32_t)dice() : UINT32_MAX - below(4000), looked);
        }
    }
}

/* A refused call tells its refusal, and no sleep. */
static void test_sleep_of_the_refused(void) {
    struct lengths n = right(SHEET);
    const struct lengths wrong[] = {{n.image - 1, n.memory, n.room}, {n.image, n.memory + 1, n.room}, {n.image, n.memory, n.room - 1}};
    for (size_t i = 0; i < COUNT(wrong); i++) {
        open_frame(SHEET, 1000);
        remember();
        uint64_t poll = qs_poll(lent.image, wrong[i].image, 1500, lent.memory, wrong[i].memory, lent.room, wrong[i].room);
        uint64_t character = qs_character(lent.image, wrong[i].image, 1500, 0, 0, lent.memory, wrong[i].memory, lent.room, wrong[i].room);
        check(QS_REPLY(poll) == QS_R1 + i && QS_SLEEP(poll) == QS_SLEEP_REFUSED && QS_IS_REFUSED(poll), "a refused poll", i);
        check(character == poll && as_it_was(), "a refused character", i);
    }
}

/* ---- exactly what each call changes in the image -------------------------------------------------------------------------------------------------------- */

static void test_image_changes(void) {
    open_frame(SHEET, 500);
    remember();
    check(measured_with(right(SHEET), 0x04030201) == 0, "measured returns 0", 0);
    memcpy(before.image + QS_IMAGE_MEASURED, "\x01\x02\x03\x04", 4);
    check(as_it_was(), "measured changes its four bytes", 0);
    check(fault_with(right(SHEET), 0x99) == 0, "fault returns 0", 0);
    before.image[QS_IMAGE_WAITING] = 0x99;
    check(as_it_was(), "a fault changes one place", 0);
    check(fault_with(right(SHEET), 0x99) == 0 && fault_with(right(SHEET), 0) == 0 && as_it_was(), "a waiting code and 00h change nothing", 0);
    check(fault_with(right(SHEET), 0x24) == 0, "24h is taken", 0);
    before.image[QS_IMAGE_LOCKED] = 1;
    check(as_it_was(), "24h locks and does not wait", 0);
    check(character_with(right(SHEET), 0x01020304, 0x5A, 0) == 5, "the frame is closed by the next character", 0);
    memcpy(before.room, lent.room, 5);
    memcpy(before.image + QS_IMAGE_LAST, "\x04\x03\x02\x01\x5A\x01\x5A", 7);
    check(as_it_was(), "kept bytes beyond their number are left as they were", 0);
    check(power_on_with(right(SHEET)) == 0, "power-on returns 0", 0);
    memset(before.image + QS_IMAGE_WAITING, 0, QS_IMAGE_KEPT - QS_IMAGE_WAITING);
    check(as_it_was(), "power-on clears queue, lock and the frame's numbers", 0);
}

/* With no frame open the frame's numbers are not read. */
static void test_closed_frame_numbers(void) {
    static const uint8_t junk[] = {0, 1, 1, 77, 0, 0, 9, 0x3C, 50};
    start(SHEET);
    memcpy(lent.image + QS_IMAGE_OPEN, junk, sizeof junk);
    remember();
    check(poll_with(right(SHEET), 5000) == 0 && as_it_was(), "a poll with no frame open does nothing", 0);
    check(fault_with(right(SHEET), 0) == 0 && as_it_was(), "nor does a fault 00h", 0);
    check(character_with(right(SHEET), 0x10, 0xAB, 0) == 0, "a character opens a frame", 0);
    memcpy(before.image + QS_IMAGE_OPEN, "\x01\x00\x00\x10\x00\x00\x00\xAB\x01\xAB", 10);
    check(as_it_was(), "and starts its numbers anew", 0);
    memcpy(lent.image + QS_IMAGE_OPEN, junk, sizeof junk);
    remember();
    check(power_on_with(right(SHEET)) == 0, "power-on", 0);
    memset(before.image + QS_IMAGE_OPEN, 0, QS_IMAGE_KEPT - QS_IMAGE_OPEN);
    check(as_it_was(), "power-on clears them", 0);
}

/* States within the limits that no run leads to are worked literally. */
static void test_states_that_never_arise(void) {
    static const struct {
        uint8_t longer, sum, kept;
        const char *reply;
    } cases[] = {{0, 0, 0, ""}, {1, 7, 2, ""}, {1, 0, 3, "40 50 0C"}, {1, 9, 3, "40 50 0A"}, {0, 9, 3, "40 50 0A"}, {0, 0, 3, "40 4E 70 00"}};
    for (size_t i = 0; i < COUNT(cases); i++) {
        uint8_t expected[QS_REPLY_ROOM + 1];
        size_t n = sealed(cases[i].reply, expected);
        start(SHEET);
        memcpy(lent.image + QS_IMAGE_KEPT, "\x40\x4E\xFF", 3);
        lent.image[QS_IMAGE_OPEN] = 1;
        lent.image[QS_IMAGE_LONGER] = cases[i].longer;
        lent.image[QS_IMAGE_SUM] = cases[i].sum;
        lent.image[QS_IMAGE_KEPT_NUMBER] = cases[i].kept;
        remember();
        check(poll_with(right(SHEET), 220) == n && memcmp(lent.room, expected, n) == 0, "a state that never arises", i);
        memcpy(before.room, expected, n);
        memset(before.image + QS_IMAGE_OPEN, 0, QS_IMAGE_KEPT - QS_IMAGE_OPEN);
        check(as_it_was(), "its frame's numbers are 0 afterwards", i);
    }
}

/* ---- lent memory that is not blank ---------------------------------------------------------------------------------------------------------------------- */

/* 01, "03h": before 12h and all else. The first places of the status table, the rest 00h. */
static const struct {
    const char *name;
    uint8_t table[8];
} UNSOUND[] = {
    {"a field behind a place that is 00h", {0, 0x80}},
    {"a field behind a field and a place that is 00h", {0x80, 0, 0x80}},
    {"a status other than 00h whose bit 7 is clear", {0x01}},
    {"bit 7 clear, write-enabled", {0x40}},
    {"bit 7 clear behind a field", {0x80, 0x7F}},
    {"bit 7 clear behind all blocks", {0x83, 0x82, 0x80, 0x01}},
    {"bit 7 clear at the last place", {0, 0, 0, 0, 0, 0, 0, 1}},
    {"nine blocks of eight", {0x87, 0x80}},
    {"nine blocks of eight, write-enabled", {0xC7, 0x80}},
    {"sixteen blocks of eight", {0x87, 0x87}},
};

static const struct line UNSOUND_LINES[] = {
    {"40 4A 00 00 01 55", "40 50 03"}, {"40 4A 09 00 00 00", "40 50 03"}, {"40 4B 00 00 01 55 AA", "40 50 03"}, {"40 4B 09 00 01 00 00", "40 50 03"},
    {"40 4C 00", "40 50 03"},          {"40 4C 09", "40 50 03"},          {"40 4D 00 C0 55", "40 50 03"},       {"40 4D 09 00 00", "40 50 03"},
    {"40 4E", "40 50 03"},             {"40 46", "40 46 00 00 00"},       {"40 52", "40 52 " TYPE_LABEL},       {"40 56", "40 56 " VERSION_LABEL},
    {"40 55 60 55", "40 50 0D"},       {"40 55 40 55", "40 55"},
};

static void test_unsound_tables(void) {
    for (size_t i = 0; i < COUNT(UNSOUND); i++) {
        start(EIGHT);
        memset(lent.memory, 0xDD, 8 * QS_BLOCK);
        memcpy(lent.memory + 8 * QS_BLOCK, UNSOUND[i].table, 8);
        struct lent whole = lent;
        for (size_t j = 0; j < COUNT(UNSOUND_LINES); j++)
            works(EIGHT, UNSOUND_LINES[j], UNSOUND[i].name);
        check(memcmp(whole.memory, lent.memory, sizeof lent.memory) == 0, UNSOUND[i].name, i);
    }
}

/* 01, "Blocks granted and blocks given back are set to 00h; kept bytes stay": a memory of DDh. Before each line the field's blocks are filled with a byte;
 * then the byte that each of the eight blocks is full of. */
static const struct {
    const char *name;
    size_t filled;
    uint8_t with;
    struct line line;
    uint8_t blocks[8];
} DIRTY[] = {
    {"a grant clears its blocks alone", 0, 0, {"40 4D 00 C1 55", "40 4D 00 C1"}, {0, 0, 0xDD, 0xDD, 0xDD, 0xDD, 0xDD, 0xDD}},
    {"growth clears what it adds", 2, 0x11, {"40 4D 00 C3 55", "40 4D 00 C3"}, {0x11, 0x11, 0, 0, 0xDD, 0xDD, 0xDD, 0xDD}},
    {"a cut clears what it gives back", 4, 0x22, {"40 4D 00 C2 55", "40 4D 00 C2"}, {0x22, 0x22, 0x22, 0, 0xDD, 0xDD, 0xDD, 0xDD}},
    {"a cut to one block", 3, 0x33, {"40 4D 00 C0 55", "40 4D 00 C0"}, {0x33, 0, 0, 0, 0xDD, 0xDD, 0xDD, 0xDD}},
    {"a second field leaves the first", 1, 0x44, {"40 4D 01 C4 55", "40 4D 01 C4"}, {0x44, 0, 0, 0, 0, 0, 0xDD, 0xDD}},
    {"a deletion clears the last field alone", 6, 0x55, {"40 4D 01 44 55", "40 4D 01 44"}, {0x55, 0, 0, 0, 0, 0, 0xDD, 0xDD}},
    {"a deletion clears the only field", 1, 0x66, {"40 4D 00 40 55", "40 4D 00 40"}, {0, 0, 0, 0, 0, 0, 0xDD, 0xDD}},
    {"eight blocks free, no field", 0, 0, {"40 4E", "40 4E 08 00"}, {0, 0, 0, 0, 0, 0, 0xDD, 0xDD}},
};

/* Every status that a field can have, deleted by every status: taken exactly if all bits but bit 7 are alike, and then its blocks are 00h and its status is;
 * any other is 0Dh, and image and memory are as they were. Data is 77h in the field and DDh behind it. */
static void deleted_as(uint8_t stored, uint8_t named) {
    const uint8_t request[] = {0x40, QS_CREATE_FIELD, 0, named, GOOD_CODE}, error[] = {0x40, QS_READ_STATUS, QS_ERROR_WRONG_ARGUMENT};
    bool alike = (stored ^ named) == QS_STATUS_EXISTS;
    size_t size = QS_BLOCK * ((stored & QS_STATUS_BLOCKS) + 1u);
    memset(lent.memory, 0xDD, 8 * QS_BLOCK);
    memset(lent.memory, 0x77, size);
    lent.memory[8 * QS_BLOCK] = stored;
    struct lent whole = lent;
    asks_bytes(EIGHT, request, sizeof request, alike ? request : error, alike ? 4 : sizeof error, "a deletion's status", named);
    if (alike) {
        memset(whole.memory, 0, size);
        whole.memory[8 * QS_BLOCK] = 0;
    }
    check(memcmp(whole.image, lent.image, QS_IMAGE_OPEN) == 0, "a deletion leaves the state", named);
    check(memcmp(whole.memory, lent.memory, sizeof whole.memory) == 0, "what a deletion leaves in memory", named);
}

static void test_deletions(void) {
    start(EIGHT);
    for (unsigned stored = 0x80; stored <= 0xFF; stored++) {
        for (unsigned named = 0; named <= 0x7F; named++)
            deleted_as((uint8_t)stored, (uint8_t)named);
        check(QS_DELETION_OF(stored) + 0x80u == stored, "the header's word for it", stored);
    }
}

static bool all_are(const uint8_t *bytes, size_t n, uint8_t value) {
    for (size_t i = 0; i < n; i++)
        if (bytes[i] != value)
            return false;
    return true;
}

static void test_dirty_memory(void) {
    start(EIGHT);
    memset(lent.memory, 0xDD, 8 * QS_BLOCK);
    for (size_t i = 0; i < COUNT(DIRTY); i++) {
        memset(lent.memory, DIRTY[i].with, DIRTY[i].filled * QS_BLOCK);
        works(EIGHT, DIRTY[i].line, DIRTY[i].name);
        for (size_t block = 0; block < 8; block++)
            check(all_are(lent.memory + block * QS_BLOCK, QS_BLOCK, DIRTY[i].blocks[block]), DIRTY[i].name, block);
    }
    check(all_are(lent.memory + 8 * QS_BLOCK, 8, 0), "the status table is blank again", 0);
}

/* 01, "total blocks T 112": a field for each block; then one too many, whose code is tested first, and the last field. */
static void test_largest(void) {
    static const struct line full[] = {
        {"40 4E", "40 4E 00 70"},    {"40 4D 70 C0 55", "40 50 10"}, {"40 4D 70 C0 00", "40 50 0F"},
        {"40 4C 6F", "40 4C 6F C0"}, {"40 4C 70", "40 50 12"},       {"40 4B 6F 0F 01 00 AB", "40 4B 6F 0F 01"},
    };
    start(SHEET);
    for (unsigned i = 0; i < 112; i++) {
        char request[32], reply[32];
        snprintf(request, sizeof request, "40 4D %02X C0 55", i);
        snprintf(reply, sizeof reply, "40 4D %02X C0", i);
        asks(SHEET, request, reply, "T = 112");
    }
    for (size_t i = 0; i < COUNT(full); i++)
        works(SHEET, full[i], "T = 112, all fields there");
    check(lent.memory[112 * QS_BLOCK - 1] == 0xAB, "the last byte of the last field", 0);
}

/* ---- the bench ------------------------------------------------------------------------------------------------------------------------------------------ */

static void request_is(uint32_t address, const char *command_and_data, uint64_t buffer_length, const char *expected_text, uint64_t refusal) {
    uint8_t given[QS_REQUEST_BUFFER + 1], expected[QS_REQUEST_BUFFER + 1];
    size_t n = sealed(command_and_data, given) - 1;
    size_t expected_length = sealed(expected_text, expected);
    memset(&lent, GUARD_BYTE, sizeof lent);
    remember();
    uint64_t result = request_with(address, given, n, buffer_length);
    check(result == (refusal != 0 ? refusal : expected_length), command_and_data, address);
    memcpy(before.room, expected, expected_length);
    check(as_it_was(), command_and_data, address);
}

/* Commands and data that the bench writes, with the length of the reply to each; no reply to 53h. Then those that it does not write. */
static const struct {
    const char *asked;
    uint64_t reply_length;
} GOOD[] = {
    {"42", 7},
    {"43 00 00 00 02 55", 3},
    {"46", 6},
    {"47", 3},
    {"49 55", 3},
    {"4A 00 00 01 55", 7},
    {"4A 00 00 30 55", 54},
    {"4A FF FF 7F 55", 133},
    {"4A FF FF 80 55", 134},
    {"4B 00 00 01 55 AA", 6},
    {"4B 01 00 03 55 AA BB CC", 6},
    {"4C FF", 5},
    {"4D FF FF FF", 5},
    {"4E", 5},
    {"4F 03 55 66", 4},
    {"50", 4},
    {"52", 7},
    {"53", QS_B5},
    {"55 45 55", 3},
    {"55 40 00", 3},
    {"55 00 55", 3},
    {"55 60 55", 3},
    {"55 FF FF", 3},
    {"56", 40},
};

static const char *const BAD[] = {"44", "C2", "00", "FF", "42 00", "43", "43 00 00 00 02", "49", "4A 00 00 00 55", "4A 00 00 81 55", "4A 00 00 01",
                                  "4B", "4B 00 00 00 55", "4B 00 00 02 55 AA", "4B 00 00 01 55", "4C", "4D 00 C0", "4F 04 55 66", "50 00", "53 00",
                                  "51", "52 00", "54", "55", "55 45", "55 45 55 00", "56 00", "57", "57 E4 55", "D2", "D5 45 55", "D6"};

static void test_requests(void) {
    for (size_t i = 0; i < COUNT(GOOD); i++) {
        char expected[64];
        const char *good = GOOD[i].asked;
        snprintf(expected, sizeof expected, "40 %s", good);
        request_is(0, good, QS_REQUEST_BUFFER, expected, 0);
        snprintf(expected, sizeof expected, "5F %s", good);
        request_is(31, good, QS_REQUEST_BUFFER + 1, expected, 0);
        snprintf(expected, sizeof expected, "FF %s", good);
        request_is(QS_BROADCAST, good, QS_REQUEST_BUFFER, expected, 0);
        request_is(0, good, QS_REQUEST_BUFFER - 1, "", QS_R4);
        request_is(32, good, QS_REQUEST_BUFFER, "", QS_R5);
        request_is(256, good, QS_REQUEST_BUFFER, "", QS_R5);
        request_is(UINT32_MAX, good, 0, "", QS_R4);
    }
    for (size_t i = 0; i < COUNT(BAD); i++) {
        request_is(0, BAD[i], QS_REQUEST_BUFFER, "", QS_R5);
        request_is(0, BAD[i], 3, "", QS_R4);
    }
}

/* 02, "Req 01": "The new address byte is the board's to judge", and so is the code. */
static void test_address_requests(void) {
    for (unsigned i = 0; i < 2 * 256; i++) {
        char asked[16], expected[32];
        snprintf(asked, sizeof asked, "55 %02X %02X", i % 256, i < 256 ? 0x55u : i % 256);
        snprintf(expected, sizeof expected, "40 %s", asked);
        request_is(0, asked, QS_REQUEST_BUFFER, expected, 0);
        snprintf(expected, sizeof expected, "FF %s", asked);
        request_is(QS_BROADCAST, asked, QS_REQUEST_BUFFER, expected, 0);
    }
}

static void test_long_requests(void) {
    static uint8_t asked[300] = {QS_STORE_DATA, 0, 0, 128, 0x55};
    memset(&lent, GUARD_BYTE, sizeof lent);
    remember();
    for (size_t n = 1; n < sizeof asked; n++) {
        uint64_t result = request_with(0, asked, n, sizeof lent.room);
        check(result == (n == 133 ? 135 : QS_R5), "4Bh wants 4 + count bytes", n);
        if (n == 133)
            lent = before;
        check(as_it_was(), "a refused request leaves the buffer", n);
    }
}

static const struct {
    const char *request, *reply;
    uint32_t verdict;
} JUDGED[] = {
    {"40 4E", "40 4E 70 00", QS_VERDICT_DONE},
    {"40 4E", "40 CE 70 00", QS_VERDICT_DONE_WITH_WARNING},
    {"40 4E", "40 50 03", QS_VERDICT_ERROR + 3},
    {"40 4E", "40 D0 FF", QS_VERDICT_ERROR_WITH_WARNING + 255},
    {"40 47", "40 47", QS_VERDICT_DONE},
    {"40 50", "40 50 08", QS_VERDICT_DONE},
    {"40 50", "40 D0 08", QS_VERDICT_DONE_WITH_WARNING},
    {"FF 4E", "5F 4E 70 00", QS_VERDICT_DONE},
    {"40 4A 01 05 02 55", "40 4A 01 05 02 08 15", QS_VERDICT_DONE},
    {"40 4C 01", "40 4C 01 E0", QS_VERDICT_DONE},
    {"40 53", "40 50 0C", QS_VERDICT_ERROR + 12},
    {"", "40 4E 70 00", QS_B0},
    {"60 4E", "60 4E 70 00", QS_B0},
    {"40 44", "40 44", QS_B0},
    {"40 4E 00", "40 4E 70 00", QS_B0},
    {"40 4A 01 05 00 55", "40 4A 01 05 00", QS_B0},
    {"40 4F 04 55 55", "40 4F 04", QS_B0},
    {"40 4E", "", QS_B1},
    {"40 4E", "40", QS_B1},
    {"40 4E", "41 4E 70 00", QS_B3},
    {"FF 4E", "60 4E 70 00", QS_B3},
    {"FF 4E", "FF 4E 70 00", QS_B3},
    {"40 4E", "40 4C 70 00", QS_B4},
    {"40 4E", "40 4E 70", QS_B5},
    {"40 4E", "40 50 03 03", QS_B5},
    {"40 4E", "40 50", QS_B5},
    {"40 53", "40 53", QS_B5},
    {"40 53", "40 D3 00", QS_B5},
    {"40 4A 01 05 02 55", "40 4A 01 05 02 08", QS_B5},
    {"40 4A 01 05 02 55", "40 4A 01 05 03 08 15", QS_B6},
    {"40 4B 01 05 01 55 AA", "40 4B 02 05 01", QS_B6},
    {"40 4C 01", "40 4C 02 E0", QS_B6},
    {"40 4D 01 E0 55", "40 4D 01 E1", QS_B6},
    {"40 4F 02 55 66", "40 4F 03", QS_B6},
    {"40 52", "40 52 E4 07 80 00", QS_VERDICT_DONE},
    {"FF 52", "5F D2 E4 07 80 00", QS_VERDICT_DONE_WITH_WARNING},
    {"40 52", "40 50 0C", QS_VERDICT_ERROR + 12},
    {"40 52", "40 52 E4 07 80", QS_B5},
    {"40 52", "40 52 E4 07 80 00 00", QS_B5},
    {"40 52", "41 52 E4 07 80 00", QS_B3},
    {"40 52", "40 56 E4 07 80 00", QS_B4},
    {"40 52 00", "40 52 E4 07 80 00", QS_B0},
    {"40 56", "40 56 " VERSION_LABEL, QS_VERDICT_DONE},
    {"40 56", "40 D6 " VERSION_LABEL, QS_VERDICT_DONE_WITH_WARNING},
    {"40 56", "40 D0 0C", QS_VERDICT_ERROR_WITH_WARNING + 12},
    {"40 56", "40 56 " VERSION_LABEL " 00", QS_B5},
    {"40 56", "40 56", QS_B5},
    {"40 56 00", "40 56 " VERSION_LABEL, QS_B0},
    /* The good reply to 55h carries the new address, an error reply the asked one. */
    {"40 55 45 55", "45 55", QS_VERDICT_DONE},
    {"40 55 45 55", "45 D5", QS_VERDICT_DONE_WITH_WARNING},
    {"40 55 45 55", "40 50 0F", QS_VERDICT_ERROR + 15},
    {"40 55 45 55", "40 D0 0D", QS_VERDICT_ERROR_WITH_WARNING + 13},
    {"40 55 45 55", "40 55", QS_B3},
    {"40 55 45 55", "40 D5", QS_B3},
    {"40 55 45 55", "46 55", QS_B3},
    {"40 55 45 55", "FF 55", QS_B3},
    {"40 55 45 55", "45 50 0F", QS_B3},
    {"40 55 45 55", "45 D0 0F", QS_B3},
    /* New and old are the same. */
    {"40 55 40 55", "40 55", QS_VERDICT_DONE},
    {"40 55 40 55", "40 50 0F", QS_VERDICT_ERROR + 15},
    {"40 55 40 55", "41 55", QS_B3},
    /* No board answers with an address byte that is none, though the request has it. */
    {"40 55 60 55", "60 55", QS_B3},
    {"40 55 3F 55", "3F D5", QS_B3},
    {"40 55 FF 55", "FF 55", QS_B3},
    {"40 55 60 55", "40 55", QS_B3},
    {"40 55 60 55", "40 50 0D", QS_VERDICT_ERROR + 13},
    /* To a broadcast too the new one; an error from any board. */
    {"FF 55 45 55", "45 55", QS_VERDICT_DONE},
    {"FF 55 45 55", "45 D5", QS_VERDICT_DONE_WITH_WARNING},
    {"FF 55 45 55", "44 55", QS_B3},
    {"FF 55 45 55", "40 50 0F", QS_VERDICT_ERROR + 15},
    {"FF 55 45 55", "45 50 0F", QS_VERDICT_ERROR + 15},
    {"FF 55 45 55", "5F D0 0D", QS_VERDICT_ERROR_WITH_WARNING + 13},
    {"FF 55 45 55", "60 50 0F", QS_B3},
    {"FF 55 60 55", "60 55", QS_B3},
    {"FF 55 FF 55", "FF 55", QS_B3},
    {"FF 55 60 55", "5F 50 0D", QS_VERDICT_ERROR + 13},
    /* B3 before B4 and B5: a command that is neither must carry the asked address, and 55h to another request too. */
    {"40 55 45 55", "40 4E 70 00", QS_B4},
    {"40 55 45 55", "45 4E 70 00", QS_B3},
    {"40 55 45 55", "40 54", QS_B4},
    {"40 55 45 55", "45 54", QS_B3},
    {"FF 55 45 55", "46 52", QS_B4},
    {"FF 55 45 55", "60 52", QS_B3},
    {"40 4E", "40 55", QS_B4},
    {"40 4E", "40 D5", QS_B4},
    {"40 4E", "45 55", QS_B3},
    {"FF 4E", "45 55", QS_B4},
    {"40 43 45 55 45 55 55", "45 55", QS_B3},
    {"40 4F 03 45 55", "45 55", QS_B3},
    {"40 55 45 55", "45 55 45", QS_B5},
    {"40 55 45 55", "45 D5 00 00", QS_B5},
    {"40 55 45 55", "40 50", QS_B5},
    {"40 55 45 55", "45", QS_B1},
    {"40 55 45", "45 55", QS_B0},
    {"40 55 45 55 00", "45 55", QS_B0},
    {"60 55 45 55", "45 55", QS_B0},
};

static void judged_as(const uint8_t *request, size_t request_length, const uint8_t *reply, size_t reply_length, uint32_t verdict, unsigned long number) {
    struct judgement found = judge(request, request_length, reply, reply_length);
    bool taken = verdict < QS_VERDICT_REFUSED;
    check(found.verdict == verdict, "verdict", number);
    check(found.part == (taken ? ((uint64_t)2 << 32) + reply_length - 3 : 0u), "the data part", number);
    check(QS_DATA_PLACE(found.part) == (taken ? 2u : 0u), "the data part's place", number);
    check(QS_DATA_LENGTH(found.part) == (taken ? reply_length - 3 : 0u), "the data part's length", number);
    if (!taken)
        return;
    bool error = (reply[1] & 0x7F) == 0x50 && request[1] != 0x50;
    check(QS_VERDICT_IS_ERROR(found.verdict) == error, "the verdict tells an error", number);
    check(!error || QS_VERDICT_CODE(found.verdict) == reply[2], "the verdict tells its code", number);
    check(QS_VERDICT_WARNS(found.verdict) == (reply[1] >= 0x80), "the verdict tells a warning", number);
}

static void test_verdicts(void) {
    for (size_t i = 0; i < COUNT(JUDGED); i++) {
        uint8_t request[QS_REQUEST_BUFFER], reply[QS_REPLY_ROOM];
        size_t asked = sealed(JUDGED[i].request, request);
        size_t replied = sealed(JUDGED[i].reply, reply);
        judged_as(request, asked, reply, replied, JUDGED[i].verdict, i);
        if (asked > 0) {
            request[asked - 1] ^= 1;
            judged_as(request, asked, reply, replied, QS_B0, i + 100);
            request[asked - 1] ^= 1;
        }
        if (replied > 2 && JUDGED[i].verdict != QS_B0) {
            reply[replied - 1] ^= 0x80;
            judged_as(request, asked, reply, replied, QS_B2, i + 200);
        }
    }
}

static bool is_address_byte(uint8_t byte) {
    return byte >= 0x40 && byte <= 0x5F;
}

/* 02, "Req 01": "after 55h it expects whichever address byte the table shows, in an error reply the old one". For a reply without data or with the one byte of
 * an error. */
static uint32_t verdict_on_address(uint8_t asked, uint8_t wanted, uint8_t replied, uint8_t command) {
    uint8_t bare = command & 0x7F;
    uint32_t warns = command >= 0x80;
    bool right_one = bare == QS_SET_ADDRESS ? replied == wanted && is_address_byte(wanted) : asked == EVERY_BOARD ? is_address_byte(replied) : replied == asked;
    if (!right_one)
        return QS_B3;
    if (bare == QS_READ_STATUS)
        return (warns ? QS_VERDICT_ERROR_WITH_WARNING : QS_VERDICT_ERROR) + QS_ERROR_WRONG_CODE;
    return bare == QS_SET_ADDRESS ? warns : QS_B4;
}

/* Every new address byte; replies from the asked one, the new one, its neighbours and both ends of the range. */
static void test_address_verdicts(void) {
    static const uint8_t askeds[] = {0x40, 0x45, 0x5F, EVERY_BOARD}, commands[] = {0x55, 0xD5, 0x50, 0xD0, 0x52, 0x15, 0x95};
    for (uint32_t i = 0; i < 256 * COUNT(askeds) * COUNT(commands); i++) {
        uint8_t wanted = (uint8_t)i, asked = askeds[i / 256 % COUNT(askeds)], command = commands[i / 256 / COUNT(askeds)];
        const uint8_t from[] = {asked, wanted, (uint8_t)(wanted + 1), (uint8_t)(wanted ^ 0x20), wanted & 0x1F, 0x3F, 0x40, 0x5F, 0x60, EVERY_BOARD, 0};
        uint8_t request[] = {asked, QS_SET_ADDRESS, wanted, GOOD_CODE, (uint8_t)(asked ^ QS_SET_ADDRESS ^ wanted ^ GOOD_CODE)};
        for (size_t j = 0; j < COUNT(from); j++) {
            uint8_t reply[4] = {from[j], command, QS_ERROR_WRONG_CODE};
            size_t n = (command & 0x7F) == QS_READ_STATUS ? 3 : 2;
            reply[n] = xor_of(reply, n);
            judged_as(request, sizeof request, reply, n + 1, verdict_on_address(asked, wanted, from[j], command), i * 16 + j);
        }
    }
}

/* ---- the length of a reply ------------------------------------------------------------------------------------------------------------------------------ */

/* The request to a board, or to all, sealed. */
static size_t request_of(const char *address, const char *asked, uint8_t *request) {
    char hex[64];
    snprintf(hex, sizeof hex, "%s %s", address, asked);
    return sealed(hex, request);
}

/* What is told of a reply that begins so, as far as it is here: nothing before its second byte, and neither its address nor its rest is read. */
static void length_is(const uint8_t *request, size_t asked, uint8_t command, uint64_t expected, unsigned long number) {
    static const uint8_t addresses[] = {0x40, 0x5F, 0x00, 0xFF};
    static const uint64_t here[] = {2, 3, 4, 5, QS_REPLY_ROOM, QS_REPLY_ROOM + 1, 300};
    uint8_t reply[300];
    memset(reply, (int)number, sizeof reply);
    reply[1] = command;
    for (size_t i = 0; i < COUNT(addresses); i++) {
        reply[0] = addresses[i];
        for (uint64_t none = 0; none < 2 && expected != QS_B0; none++)
            check(qs_reply_length(request, asked, reply, none) == 0, "no length yet", number);
        for (size_t j = 0; j < COUNT(here); j++)
            check(qs_reply_length(request, asked, reply, here[j]) == expected, "a reply's length", number * 1000 + command);
    }
}

/* Every command byte in the reply to every request: the request's own and 50h, each with and without bit 7, else B4. */
static void test_reply_lengths(void) {
    static const char *const addresses[] = {"40", "47", "5F", "FF"};
    uint8_t request[QS_REQUEST_BUFFER];
    for (size_t i = 0; i < COUNT(GOOD) * COUNT(addresses); i++) {
        size_t asked = request_of(addresses[i % COUNT(addresses)], GOOD[i / COUNT(addresses)].asked, request);
        uint64_t own = GOOD[i / COUNT(addresses)].reply_length;
        for (unsigned command = 0; command < 256; command++) {
            unsigned bare = command % 128;
            length_is(request, asked, (uint8_t)command, bare == 0x50 ? 4 : bare == request[1] ? own : QS_B4, i);
        }
    }
}

/* B0 before B4 and B5: requests that the bench does not write, a wrong checksum, another address, cut and too long. */
static void test_reply_lengths_of_none(void) {
    uint8_t request[QS_REQUEST_BUFFER + 2];
    static const uint8_t commands[] = {0x42, 0x4E, 0x50, 0x53, 0xD0, 0x00, 0xFF};
    for (size_t i = 0; i < COUNT(BAD) * COUNT(commands); i++) {
        size_t asked = request_of("40", BAD[i / COUNT(commands)], request);
        length_is(request, asked, commands[i % COUNT(commands)], QS_B0, i);
        length_is(request, asked, request[1], QS_B0, i);
    }
    for (size_t i = 0; i < COUNT(GOOD); i++) {
        size_t asked = request_of("40", GOOD[i].asked, request);
        for (size_t n = 0; n < asked; n++)
            if (n < 3 || xor_of(request, n) != 0)
                length_is(request, n, request[1], QS_B0, i);
        for (size_t place = 0; place < asked; place++) {
            request[place] ^= 0x10;
            length_is(request, asked, request[1], QS_B0, i);
            request[place] ^= 0x10;
        }
        request[asked] = 0;
        length_is(request, asked + 1, request[1], QS_B0, i);
        asked = request_of("60", GOOD[i].asked, request);
        length_is(request, asked, request[1], QS_B0, i);
    }
}

/* The header: "QS_B0, whatever is here, for what is not a request": also before two bytes are here. */
static void test_reply_lengths_too_early(void) {
    static const uint8_t reply[] = {0x40, 0x4E};
    uint8_t request[QS_REQUEST_BUFFER];
    for (size_t i = 0; i < COUNT(BAD); i++)
        for (uint64_t here = 0; here < 2; here++) {
            size_t asked = request_of("40", BAD[i], request);
            check(qs_reply_length(request, asked, reply, here) == QS_B0, "what is no request is told at once", i);
            check(qs_reply_length(request, 0, reply, here) == QS_B0, "nothing at all, too", i);
        }
}

/* A reply that is judged has the length that was told from its second byte on; of one that is not, nothing else is told than the judge's own reason. */
static void test_reply_lengths_as_judged(void) {
    for (size_t i = 0; i < COUNT(JUDGED); i++) {
        uint8_t request[QS_REQUEST_BUFFER], reply[QS_REPLY_ROOM];
        size_t asked = sealed(JUDGED[i].request, request), replied = sealed(JUDGED[i].reply, reply);
        uint32_t verdict = JUDGED[i].verdict;
        for (size_t here = 0; here <= replied; here++) {
            uint64_t told = qs_reply_length(request, asked, reply, here);
            if (here < 2)
                check(told == (verdict == QS_B0 ? QS_B0 : 0), "no length yet, but B0 at once", i);
            else if (verdict < QS_VERDICT_REFUSED)
                check(told == replied, "the length of a reply that is judged", i);
            else if (verdict == QS_B0 || verdict == QS_B4)
                check(told == verdict, "the judge's reason", i);
            else if (verdict == QS_B5)
                check(told == QS_B5 || (told >= 3 && told <= QS_REPLY_ROOM && told != replied), "another length", i);
        }
    }
}

/* ---- lengths of more than 32 bits ----------------------------------------------------------------------------------------------------------------------- */

/* 2^32 bytes and a page that nobody else has; what is not touched costs nothing. */
static const uint64_t FAR = (uint64_t)1 << 32;
static uint8_t *wide;

/* A length that is right but for 2^32 is a wrong one, and a room of more than 2^32 bytes is room enough. */
static void long_lengths_of_the_board(void) {
    static const uint8_t label[QS_LABEL_LENGTH], lasting[QS_LASTING_LENGTH];
    uint8_t image[QS_IMAGE_LENGTH];
    const uint64_t l = sizeof label, s = sizeof lasting, i = sizeof image;
    struct lengths n = right(EIGHT);
    check(qs_fresh(8, 24, 0, 4, 55, label, l, wide, FAR + i) == QS_R1, "fresh and a long image", 0);
    check(qs_fresh(8, 24, 0, 4, 55, wide, FAR + l, image, i) == QS_R1, "fresh and a long label", 0);
    check(qs_restart(8, 24, 0, 4, 55, label, l, lasting, s, wide, FAR + i) == QS_R1, "restart and a long image", 0);
    check(qs_restart(8, 24, 0, 4, 55, label, l, wide, FAR + s, image, i) == QS_R1, "restart and long lasting bytes", 0);
    check(qs_restart(8, 24, 0, 4, 55, wide, FAR + l, lasting, s, image, i) == QS_R1, "restart and a long label", 0);
    open_frame(EIGHT, 1000);
    memcpy(wide, lent.image, QS_IMAGE_LENGTH);
    remember();
    check(QS_REPLY(qs_character(wide, FAR + n.image, 2000, 0, 0, lent.memory, n.memory, lent.room, n.room)) == QS_R1, "a character and a long image", 0);
    check(QS_REPLY(qs_poll(wide, FAR + n.image, 2000, lent.memory, n.memory, lent.room, n.room)) == QS_R1, "a poll and a long image", 0);
    check(qs_measured(wide, FAR + n.image, 2) == QS_R1, "measured and a long image", 0);
    check(qs_fault(wide, FAR + n.image, 2) == QS_R1 && qs_power_on(wide, FAR + n.image) == QS_R1, "fault, power-on and a long image", 0);
    check(memcmp(wide, before.image, QS_IMAGE_LENGTH) == 0, "a long image is as it was", 0);
    check(QS_REPLY(qs_character(lent.image, n.image, 2000, 0, 0, wide, FAR + n.memory, lent.room, n.room)) == QS_R2, "a character and a long memory", 0);
    check(QS_REPLY(qs_poll(lent.image, n.image, 2000, wide, FAR + n.memory, lent.room, n.room)) == QS_R2 && as_it_was(), "a poll and a long memory", 0);
    check(QS_REPLY(qs_poll(lent.image, n.image, 2000, lent.memory, n.memory, wide, FAR + 3)) == 5, "a poll and a long room", 0);
    check(memcmp(wide, "\x40\x4E\x08\x00\x06", 5) == 0, "the reply is in it", 0);
}

/* Not requests and judged replies of that length: the library reads them to their end, which takes seconds. */
static void long_lengths_of_the_bench(void) {
    static const uint8_t request[] = {0x40, 0x4E, 0x0E}, reply[] = {0x40, 0x4E, 0x08, 0x00, 0x06};
    memcpy(wide, reply, sizeof reply);
    check(qs_request(0, 0x4E, wide, FAR, lent.room, QS_REQUEST_BUFFER) == QS_R5, "long data", 0);
    check(qs_reply_length(request, 3, wide, FAR) == 5 && qs_reply_length(request, 3, wide, FAR + 1) == 5, "a long reply's length", 0);
    check(qs_request(0, 0x4E, request, 0, wide, FAR + 3) == 3 && memcmp(wide, request, 3) == 0, "a long buffer", 0);
}

static void test_long_lengths(void) {
    if (sizeof(size_t) < sizeof FAR)
        return;
    wide = mmap(NULL, (size_t)FAR + 4096, PROT_READ | PROT_WRITE, MAP_PRIVATE | MAP_ANONYMOUS | MAP_NORESERVE, -1, 0);
    check(wide != MAP_FAILED, "2^32 bytes to lend", 0);
    if (wide == MAP_FAILED)
        return;
    long_lengths_of_the_board();
    memset(wide, 0, 4096);
    long_lengths_of_the_bench();
    munmap(wide, (size_t)FAR + 4096);
}

/* ---- macros --------------------------------------------------------------------------------------------------------------------------------------------- */

static void test_verdict_macros(void) {
    static const uint32_t plain[] = {QS_VERDICT_DONE, QS_B0, QS_B1, QS_B2, QS_B3, QS_B4, QS_B5, QS_B6};
    for (uint32_t code = 0; code < 256; code++) {
        uint32_t error = 256 + code, warned = 512 + code;
        check(QS_VERDICT_IS_ERROR(error) && QS_VERDICT_IS_ERROR(warned), "an error", code);
        check(QS_VERDICT_CODE(error) == code && QS_VERDICT_CODE(warned) == code, "its code", code);
        check(!QS_VERDICT_WARNS(error) && QS_VERDICT_WARNS(warned), "its warning", code);
        check(QS_VERDICT_WARNS((int)warned) && !QS_VERDICT_WARNS((int)error) && QS_VERDICT_IS_ERROR((uint64_t)warned), "in other types", code);
    }
    for (size_t i = 0; i < COUNT(plain); i++)
        check(!QS_VERDICT_IS_ERROR(plain[i]) && !QS_VERDICT_WARNS(plain[i]), "neither error nor warning", plain[i]);
    check(!QS_VERDICT_IS_ERROR(1) && QS_VERDICT_WARNS(1) && QS_VERDICT_DONE_WITH_WARNING == 1, "done with warning", 0);
    check(QS_B0 == 1024 && QS_B6 == 1030, "the judge's refusals", 0);
}

/* Which commands store: 43h the offset, 47h and 49h the counter, 4Bh and 4Dh memory, 4Fh a code, 55h the address. */
static void test_other_macros(void) {
    for (uint32_t command = 0; command < 256; command++) {
        uint32_t bare = command >= 128 ? command - 128 : command;
        bool stores = bare == 0x43 || bare == 0x47 || bare == 0x49 || bare == 0x4B || bare == 0x4D || bare == 0x4F || bare == 0x55;
        check(QS_MAY_CHANGE((uint8_t)command) == stores && QS_MAY_CHANGE(command) == stores, "a command that stores", command);
    }
    for (uint64_t result = 0; result <= 261; result++)
        check(QS_IS_REFUSED(result) == (result == QS_R1 || result == QS_R2 || result == QS_R3 || result == QS_R4 || result == QS_R5), "a refusal", result);
    check(QS_R1 == 257 && QS_R5 == 261, "the refusals", 0);
    const uint64_t longest = (uint64_t)3520 << 32 | 134, idle = (uint64_t)QS_NO_FRAME_OPEN << 32 | 134, refused = (uint64_t)QS_SLEEP_REFUSED << 32 | QS_R3;
    check(QS_REPLY(longest) == 134 && QS_SLEEP(longest) == QS_LONGEST_SLEEP, "the two numbers of a character and a poll", 0);
    check(QS_SLEEP(idle) == QS_NO_FRAME_OPEN && QS_REPLY(idle) == 134 && !QS_IS_REFUSED(idle), "no frame open", 0);
    check(QS_SLEEP(refused) == QS_SLEEP_REFUSED && QS_REPLY(refused) == QS_R3 && QS_IS_REFUSED(refused), "a refused call's", 0);
    check(QS_SLEEP_REFUSED != QS_NO_FRAME_OPEN && QS_SLEEP_REFUSED > QS_LONGEST_SLEEP && QS_NO_FRAME_OPEN > QS_LONGEST_SLEEP, "neither is a count", 0);
    check(QS_DATA_PLACE((uint64_t)2 << 32 | 131) == 2 && QS_DATA_LENGTH((uint64_t)2 << 32 | 131) == 131, "the two numbers of a data part", 0);
    for (uint64_t total = 1; total <= 112; total++)
        check(QS_MEMORY_LENGTH(total) == 16 * total + total && QS_MEMORY_LENGTH((uint8_t)total) == 17 * total, "the memory's length", total);
}

/* Place and size of each part, with no gap between them. */
static void follow_each_other(const unsigned parts[][2], size_t number) {
    for (size_t i = 1; i < number; i++)
        check(parts[i][0] == parts[i - 1][0] + parts[i - 1][1], "a part begins where the last one ends", i);
}

static void test_layout(void) {
    static const unsigned image[][2] = {
        {QS_IMAGE_LAYOUT, QS_IMAGE_LAYOUT_SIZE},
        {QS_IMAGE_TOTAL, QS_IMAGE_TOTAL_SIZE},
        {QS_IMAGE_BITS, QS_IMAGE_BITS_SIZE},
        {QS_IMAGE_PLATE_ADDRESS, QS_IMAGE_PLATE_ADDRESS_SIZE},
        {QS_IMAGE_TICKS, QS_IMAGE_TICKS_SIZE},
        {QS_IMAGE_PAUSE, QS_IMAGE_PAUSE_SIZE},
        {QS_IMAGE_LABEL, QS_IMAGE_LABEL_SIZE},
        {QS_IMAGE_CODES, QS_IMAGE_CODES_SIZE},
        {QS_IMAGE_COUNTER, QS_IMAGE_COUNTER_SIZE},
        {QS_IMAGE_ADDRESS, QS_IMAGE_ADDRESS_SIZE},
        {QS_IMAGE_OFFSET, QS_IMAGE_OFFSET_SIZE},
        {QS_IMAGE_MEASURED, QS_IMAGE_MEASURED_SIZE},
        {QS_IMAGE_WAITING, QS_IMAGE_WAITING_SIZE},
        {QS_IMAGE_LOCKED, QS_IMAGE_LOCKED_SIZE},
        {QS_IMAGE_OPEN, QS_IMAGE_OPEN_SIZE},
        {QS_IMAGE_LONGER, QS_IMAGE_LONGER_SIZE},
        {QS_IMAGE_PARITY, QS_IMAGE_PARITY_SIZE},
        {QS_IMAGE_LAST, QS_IMAGE_LAST_SIZE},
        {QS_IMAGE_SUM, QS_IMAGE_SUM_SIZE},
        {QS_IMAGE_KEPT_NUMBER, QS_IMAGE_KEPT_NUMBER_SIZE},
        {QS_IMAGE_KEPT, QS_IMAGE_KEPT_SIZE},
        {QS_IMAGE_LENGTH, 0},
    };
    static const unsigned label[][2] = {
        {QS_LABEL_TYPE, QS_LABEL_TYPE_SIZE}, {QS_LABEL_SERIAL, QS_LABEL_SERIAL_SIZE}, {QS_LABEL_VERSION, QS_LABEL_VERSION_SIZE},
        {QS_LABEL_DATE, QS_LABEL_DATE_SIZE}, {QS_LABEL_LENGTH, 0},
    };
    follow_each_other(image, COUNT(image));
    follow_each_other(label, COUNT(label));
    check(QS_IMAGE_LAYOUT == 0 && QS_LABEL_TYPE == 0, "both begin at 0", 0);
    check(QS_IMAGE_LASTING == QS_IMAGE_CODES && QS_IMAGE_LASTING + QS_IMAGE_LASTING_SIZE == QS_IMAGE_MEASURED, "the lasting bytes", 0);
    check(QS_LABEL_TYPE_SIZE == 4 && QS_LABEL_SERIAL_SIZE == 9 && QS_LABEL_VERSION_SIZE == 20 && QS_LABEL_DATE_SIZE == 8, "000, tables 28 and 31", 0);
    check(QS_IMAGE_LENGTH == 212 && QS_LASTING_LENGTH == 12 && QS_LAYOUT_NUMBER == 2, "lengths and layout number", 0);
    check(IN_LASTING(QS_IMAGE_COUNTER) == 4 && IN_LASTING(QS_IMAGE_ADDRESS) == 7 && IN_LASTING(QS_IMAGE_OFFSET) == 8, "what a flash holds", 0);
}

int main(void) {
    test_fresh();
    test_bad_plates();
    test_good_plates();
    test_labels();
    test_damaged_images();
    test_heads();
    test_memory_by_plate();
    test_address_limits();
    test_offset_limits();
    test_sizes();
    test_trials();
    test_cut_frames();
    test_long_frames();
    test_new_addresses();
    test_faulty_new_addresses();
    test_address_at_the_close();
    test_counters();
    test_gaps();
    test_sleeps();
    test_sleep_after_a_character();
    test_sleep_on_time();
    test_sleep_of_the_refused();
    test_image_changes();
    test_closed_frame_numbers();
    test_states_that_never_arise();
    test_unsound_tables();
    test_deletions();
    test_dirty_memory();
    test_largest();
    test_requests();
    test_address_requests();
    test_long_requests();
    test_verdicts();
    test_address_verdicts();
    test_reply_lengths();
    test_reply_lengths_of_none();
    test_reply_lengths_too_early();
    test_reply_lengths_as_judged();
    test_long_lengths();
    test_verdict_macros();
    test_other_macros();
    test_layout();
    return ended();
}
