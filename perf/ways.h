/* The ways to close a frame that are tried, for the dearest calls and the deepest stack: requests on tables of fields, and frames that are no request.
 * Each way counts to a row of the page: a request to its command's, whatever the answer; a frame that is none to one of its own. */
#ifndef WAYS_H
#define WAYS_H

#include "state.h"

enum { OWN = 0x40 + ADDRESS, ANOTHER = OWN + 1, LAST = 0x5F, EVERY = 0xFF, CODE = 0x55, WRONG = 0x56, MOST_DATA = 132 };
enum { STATUS = 0xC8, NO_CODE_WANTED = 0xC0, READ_ONLY = 0x80 }; /* of fields of one block; STATUS wants Code0 and is write-enabled */
enum { ANOTHER_DELETION = 0x10 };                                /* of none of these fields: the code number is another */

static void (*closed)(const char *row); /* what is done with each way; it leaves memory as it was */
static uint8_t address;                 /* the first byte of every frame */

/* ---- frames --------------------------------------------------------------------------------------------------------------------------------------------- */

static const struct {
    uint8_t command;
    const char *row;
} COMMANDS[] = {
    {QS_READ_POSITION, "42h Read Position"},
    {QS_SET_POSITION, "43h Set Position"},
    {QS_READ_COUNTER, "46h Read Counter"},
    {QS_INCREMENT_COUNTER, "47h Increment Counter"},
    {QS_RESET_COUNTER, "49h Reset Counter"},
    {QS_READ_DATA, "4Ah Read Data"},
    {QS_STORE_DATA, "4Bh Store Data"},
    {QS_FIELD_STATUS, "4Ch Data Field Status"},
    {QS_CREATE_FIELD, "4Dh Create Data Field"},
    {QS_MEMORY_STATUS, "4Eh Memory Status"},
    {QS_SET_ACCESS_CODE, "4Fh Set Access Code"},
    {QS_READ_STATUS, "50h Read Encoder Status"},
    {QS_READ_TYPE_LABEL, "52h Read Type Label"},
    {QS_RESET, "53h Encoder Reset"},
    {QS_SET_ADDRESS, "55h Set Encoder Address"},
    {QS_READ_VERSION, "56h Read Version"},
};

static void open_frame(uint8_t command, const uint8_t *data, unsigned length) {
    uint8_t *kept = image + QS_IMAGE_KEPT, sum = 0;
    set_image();
    kept[0] = address;
    kept[1] = command;
    memcpy(kept + 2, data, length);
    for (unsigned i = 0; i < length + 2; i++)
        sum ^= kept[i];
    kept[length + 2] = sum;
    image[QS_IMAGE_KEPT_NUMBER] = (uint8_t)(length + 3);
    image[QS_IMAGE_OPEN] = 1;
}

static void ask(uint8_t command, const uint8_t *data, unsigned length) {
    size_t i = 0;
    while (COMMANDS[i].command != command)
        i++;
    open_frame(command, data, length);
    closed(COMMANDS[i].row);
}

/* A short frame and the longest one, each with one byte of the image changed. */
static void frames_that_are_no_request(void) {
    static const struct {
        const char *row;
        uint8_t place, value;
    } CHANGES[] = {
        {"frame of another board", QS_IMAGE_KEPT, ANOTHER},
        {"frame under three bytes", QS_IMAGE_KEPT_NUMBER, 1},
        {"frame under three bytes", QS_IMAGE_KEPT_NUMBER, 2},
        {"parity fault", QS_IMAGE_PARITY, 1},
        {"wrong checksum", QS_IMAGE_SUM, 1},
        {"frame over 135 bytes", QS_IMAGE_LONGER, 1},
        {"unknown command", QS_IMAGE_KEPT + 1, 0x41},
        {"unknown command", QS_IMAGE_KEPT + 1, 0x44},
        {"unknown command", QS_IMAGE_KEPT + 1, 0x54},
        {"unknown command", QS_IMAGE_KEPT + 1, 0x57},
        {"unknown command", QS_IMAGE_KEPT + 1, 0xC2},
    };
    static const uint8_t data[MOST_DATA] = {0, 0, 128, CODE};
    for (size_t i = 0; i < sizeof CHANGES / sizeof *CHANGES; i++) {
        for (unsigned length = 0; length <= MOST_DATA; length += MOST_DATA) {
            open_frame(length == 0 ? QS_READ_COUNTER : QS_STORE_DATA, data, length);
            image[CHANGES[i].place] = CHANGES[i].value;
            closed(CHANGES[i].row);
        }
    }
}

/* A few bytes of data and nine, right for no command: 55h has two, and a store of nine has a count of five, which here is 0. */
static void data_of_wrong_length(void) {
    static const uint8_t data[9] = {0};
    for (size_t i = 0; i < sizeof COMMANDS / sizeof *COMMANDS; i++) {
        open_frame(COMMANDS[i].command, data, COMMANDS[i].command == QS_SET_ADDRESS ? 1 : 2);
        closed("data of a wrong length");
        open_frame(COMMANDS[i].command, data, sizeof data);
        closed("data of a wrong length");
    }
}

/* Requests that do not look at the table: taken, wrong code, position beyond 24 bits, code number over 3, no address byte; locked where the state is. */
static void plain_requests(void) {
    static const struct {
        uint8_t command, length, data[5];
    } REQUESTS[] = {
        {QS_READ_POSITION, 0, {0}},
        {QS_SET_POSITION, 5, {0, 1, 2, 3, CODE}},
        {QS_SET_POSITION, 5, {0, 1, 2, 3, WRONG}},
        {QS_SET_POSITION, 5, {1, 0, 0, 0, CODE}},
        {QS_READ_COUNTER, 0, {0}},
        {QS_INCREMENT_COUNTER, 0, {0}},
        {QS_RESET_COUNTER, 1, {CODE}},
        {QS_RESET_COUNTER, 1, {WRONG}},
        {QS_SET_ACCESS_CODE, 3, {3, CODE, 0x66}},
        {QS_SET_ACCESS_CODE, 3, {3, WRONG, 0x66}},
        {QS_SET_ACCESS_CODE, 3, {4, CODE, 0x66}},
        {QS_READ_STATUS, 0, {0}},
        {QS_READ_TYPE_LABEL, 0, {0}},
        {QS_RESET, 0, {0}},
        {QS_SET_ADDRESS, 2, {OWN, CODE}},
        {QS_SET_ADDRESS, 2, {LAST, CODE}},
        {QS_SET_ADDRESS, 2, {LAST, WRONG}},
        {QS_SET_ADDRESS, 2, {LAST + 1, CODE}},
        {QS_SET_ADDRESS, 2, {0, CODE}},
        {QS_READ_VERSION, 0, {0}},
    };
    for (size_t i = 0; i < sizeof REQUESTS / sizeof *REQUESTS; i++)
        ask(REQUESTS[i].command, REQUESTS[i].data, REQUESTS[i].length);
}

/* The status that deletes a field, where it is there. */
static uint8_t deletion(uint8_t field) { return field < total ? QS_DELETION_OF(memory[QS_BLOCK * total + field]) : 0; }

/* Requests to one field, taken or refused as the table is: no such field, wrong code, another status than the stored one deleted, read-only, no room,
 * count 0 or over 128, outside the field. */
static void field_requests(uint8_t field) {
    static const struct {
        uint8_t command, length, data[3];
    } REQUESTS[] = {
        {QS_FIELD_STATUS, 1, {0}},
        {QS_CREATE_FIELD, 3, {ANOTHER_DELETION, CODE}},
        {QS_CREATE_FIELD, 3, {ANOTHER_DELETION, WRONG}},
        {QS_CREATE_FIELD, 3, {STATUS, CODE}},
        {QS_CREATE_FIELD, 3, {STATUS, WRONG}},
        {QS_CREATE_FIELD, 3, {STATUS + 1, CODE}},
        {QS_CREATE_FIELD, 3, {STATUS + 7, CODE}},
        {QS_READ_DATA, 4, {0, 0, CODE}},
        {QS_READ_DATA, 4, {0, 1, CODE}},
        {QS_READ_DATA, 4, {0, 1, WRONG}},
        {QS_READ_DATA, 4, {0, 15, CODE}},
        {QS_READ_DATA, 4, {0, 127, CODE}},
        {QS_READ_DATA, 4, {0, 129, CODE}},
        {QS_READ_DATA, 4, {255, 1, CODE}},
        {QS_STORE_DATA, 4 + 1, {0, 1, CODE}},
        {QS_STORE_DATA, 4 + 1, {0, 1, WRONG}},
        {QS_STORE_DATA, 4 + 1, {255, 1, CODE}},
        {QS_STORE_DATA, 4 + 15, {0, 15, CODE}},
        {QS_STORE_DATA, 4 + 127, {0, 127, CODE}},
    };
    uint8_t data[MOST_DATA];
    fill(data, sizeof data);
    data[0] = field;
    for (size_t i = 0; i < sizeof REQUESTS / sizeof *REQUESTS; i++) {
        memcpy(data + 1, REQUESTS[i].data, 3);
        ask(REQUESTS[i].command, data, REQUESTS[i].length);
    }
    data[1] = deletion(field);
    data[2] = CODE;
    ask(QS_CREATE_FIELD, data, 3);
}

/* Bytes of one field stored that are there already; the fields before it have one block each. */
static void store_again(uint8_t field, uint8_t count) {
    uint8_t data[MOST_DATA] = {field, 0, count, CODE};
    memcpy(data + 4, memory + QS_BLOCK * field, count);
    ask(QS_STORE_DATA, data, 4u + count);
}

/* The status of one field, its end and its change to every size, 113 to 128 bytes of it read, stored and stored again. */
static void long_field_requests(uint8_t field) {
    uint8_t data[MOST_DATA] = {field, deletion(field), CODE};
    ask(QS_FIELD_STATUS, data, 1);
    ask(QS_CREATE_FIELD, data, 3);
    for (data[1] = STATUS; data[1] <= STATUS + 7; data[1]++)
        ask(QS_CREATE_FIELD, data, 3);
    memset(data + 1, CODE, sizeof data - 1);
    data[1] = 0;
    for (data[2] = 113; data[2] <= 128; data[2]++) {
        ask(QS_READ_DATA, data, 4);
        ask(QS_STORE_DATA, data, 4u + data[2]);
        if (field + 8u <= total)
            store_again(field, data[2]);
    }
}

/* ---- tables --------------------------------------------------------------------------------------------------------------------------------------------- */

/* Fields of one block each, but for the first and the last as they are given. */
static void make_table(unsigned fields, uint8_t first, uint8_t last) {
    uint8_t *table = memory + QS_BLOCK * total;
    memset(table, 0, total);
    memset(table, STATUS, fields);
    if (fields != 0) {
        table[0] = first;
        table[fields - 1] = last;
    }
}

/* A hole in the middle of a full table makes it unsound. */
static void make_hole(void) { memory[QS_BLOCK * total + total / 2] = 0; }

/* The most blocks that a last field can have, less one. */
static uint8_t more_blocks(unsigned fields) {
    unsigned room_for = total - fields;
    return (uint8_t)(room_for < 7 ? room_for : 7);
}

/* The first field, the last one and the one behind it. */
static void requests_to_table(unsigned fields) {
    ask(QS_MEMORY_STATUS, room, 0);
    field_requests((uint8_t)fields);
    if (fields > 0)
        field_requests((uint8_t)(fields - 1));
    if (fields > 1)
        field_requests(0);
}

/* The last field of one block, or of as many as there is room for. */
static void sound_tables(unsigned fields) {
    make_table(fields, STATUS, STATUS);
    requests_to_table(fields);
    if (fields == 0)
        return;
    make_table(fields, READ_ONLY, (uint8_t)(NO_CODE_WANTED + more_blocks(fields)));
    requests_to_table(fields);
}

/* More blocks than there are, and a hole. */
static void unsound_tables(void) {
    make_table(total, STATUS, STATUS + 7);
    requests_to_table(total);
    make_table(total, STATUS, STATUS);
    make_hole();
    requests_to_table(total);
}

static void long_requests_to_table(unsigned fields) {
    ask(QS_MEMORY_STATUS, room, 0);
    long_field_requests((uint8_t)(fields - 1));
    long_field_requests((uint8_t)fields);
}

/* Blank blocks granted and given back, and blank bytes stored again: of one field, and of many. */
static void blank_tables(void) {
    static const uint8_t FIELDS[] = {1, TOTAL - 8};
    memset(memory, 0, QS_BLOCK * TOTAL);
    for (size_t i = 0; i < sizeof FIELDS; i++) {
        make_table(FIELDS[i], STATUS, STATUS);
        long_requests_to_table(FIELDS[i]);
        make_table(FIELDS[i], STATUS, (uint8_t)(STATUS + more_blocks(FIELDS[i])));
        long_requests_to_table(FIELDS[i]);
        for (uint8_t count = 1; count <= 16; count++)
            store_again((uint8_t)(FIELDS[i] - 1), count);
    }
    set_plate(TOTAL, PAUSE);
}

/* From 97 to 112 fields, the last of one block or of as many as there is room for, and an unsound one. */
static void long_tables(void) {
    for (unsigned fields = TOTAL - 15; fields <= TOTAL; fields++) {
        make_table(fields, STATUS, STATUS);
        long_requests_to_table(fields);
        make_table(fields, STATUS, (uint8_t)(STATUS + more_blocks(fields)));
        long_requests_to_table(fields);
    }
    make_hole();
    long_requests_to_table(TOTAL);
}

/* ---- every way ------------------------------------------------------------------------------------------------------------------------------------------ */

static void plain_ways(void) {
    for (state = STATES; state < STATES + STATE_NUMBER; state++) {
        address = EVERY;
        plain_requests();
        address = OWN;
        plain_requests();
    }
    state = STATES;
    data_of_wrong_length();
    frames_that_are_no_request();
}

/* Where little is walked all else of a call weighs most. Here every request is a broadcast. */
static void small_tables(void) {
    static const uint8_t TOTALS[] = {1, 2, 3, 4, 5, SMALL_TOTAL};
    address = EVERY;
    for (size_t i = 0; i < sizeof TOTALS; i++) {
        set_plate(TOTALS[i], SHORT_PAUSE);
        for (unsigned fields = 0; fields <= total; fields++)
            sound_tables(fields);
        unsound_tables();
    }
    address = OWN;
}

/* The long tables make many ways: they are not tried with every number of waiting codes. */
static void each_way(void (*then)(const char *row)) {
    closed = then;
    for (codes_wait = 0; codes_wait <= 4; codes_wait++) {
        set_plate(SMALL_TOTAL, SHORT_PAUSE);
        plain_ways();
        set_plate(TOTAL, PAUSE);
        plain_ways();
        if (codes_wait % 4 == 0) {
            long_tables();
            blank_tables();
        }
        sound_tables(1);
        sound_tables(TOTAL);
        unsound_tables();
        small_tables();
    }
}

#endif
