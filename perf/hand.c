/* A board written in C by hand, unproved: what the proved one is measured against. */
#include "hand.h"

#include <stdbool.h>
#include <stddef.h>
#include <string.h>

/* ---- the image ------------------------------------------------------------------------------------------------------------------------------------------ */

static uint32_t load(const uint8_t *at) {
    return (uint32_t)at[0] | (uint32_t)at[1] << 8 | (uint32_t)at[2] << 16 | (uint32_t)at[3] << 24;
}

static void store(uint8_t *at, uint32_t value) {
    at[0] = (uint8_t)value;
    at[1] = (uint8_t)(value >> 8);
    at[2] = (uint8_t)(value >> 16);
    at[3] = (uint8_t)(value >> 24);
}

static uint32_t load_counter(const uint8_t *image) {
    const uint8_t *at = image + QS_IMAGE_COUNTER;
    return (uint32_t)at[0] | (uint32_t)at[1] << 8 | (uint32_t)at[2] << 16;
}

static void store_counter(uint8_t *image, uint32_t value) {
    uint8_t *at = image + QS_IMAGE_COUNTER;
    at[0] = (uint8_t)value;
    at[1] = (uint8_t)(value >> 8);
    at[2] = (uint8_t)(value >> 16);
}

static bool plate_is_good(uint32_t total, uint32_t bits, uint32_t address, uint32_t ticks, uint32_t pause) {
    return total - 1 < 112 && bits - 1 < 32 && address < 32 && ticks != 0 && ticks <= 64 && (ticks & (ticks - 1)) == 0 && (pause == 22 || pause == 55);
}

static bool may_wait(uint8_t code) {
    return code != 0 && code != QS_FAULT_LOCKS_A && code != QS_FAULT_LOCKS_B;
}

/* All different, none of them 00h, 22h or 24h, and no empty place before a code. */
static bool queue_is_good(const uint8_t *q) {
    if (load(q) == 0)
        return true;
    if (!may_wait(q[0]))
        return false;
    if (q[1] == 0)
        return q[2] == 0 && q[3] == 0;
    if (!may_wait(q[1]) || q[1] == q[0])
        return false;
    if (q[2] == 0)
        return q[3] == 0;
    if (!may_wait(q[2]) || q[2] == q[0] || q[2] == q[1])
        return false;
    return q[3] == 0 || (may_wait(q[3]) && q[3] != q[0] && q[3] != q[1] && q[3] != q[2]);
}

static bool state_is_good(const uint8_t *image) {
    const uint8_t *flags = image + QS_IMAGE_LOCKED;
    return image[QS_IMAGE_ADDRESS] < 32 && (uint64_t)load(image + QS_IMAGE_OFFSET) >> image[QS_IMAGE_BITS] == 0 &&
           (flags[0] | flags[1] | flags[2] | flags[3]) <= 1 && image[QS_IMAGE_KEPT_NUMBER] <= QS_KEPT_BYTES && queue_is_good(image + QS_IMAGE_WAITING);
}

static bool image_is_good(const uint8_t *image, uint64_t image_length) {
    return image_length == QS_IMAGE_LENGTH && image[QS_IMAGE_LAYOUT] == QS_LAYOUT_NUMBER &&
           plate_is_good(image[QS_IMAGE_TOTAL], image[QS_IMAGE_BITS], image[QS_IMAGE_PLATE_ADDRESS], image[QS_IMAGE_TICKS], image[QS_IMAGE_PAUSE]) &&
           state_is_good(image);
}

static void clear_frame(uint8_t *image) {
    memset(image + QS_IMAGE_OPEN, 0, QS_IMAGE_KEPT - QS_IMAGE_OPEN);
}

static void note(uint8_t *image, uint8_t code) {
    uint8_t *queue = image + QS_IMAGE_WAITING;
    if (code == QS_FAULT_LOCKS_A || code == QS_FAULT_LOCKS_B) {
        image[QS_IMAGE_LOCKED] = 1;
        return;
    }
    for (int i = 0; code != 0 && i < 4; i++) {
        if (queue[i] == code)
            return;
        if (queue[i] == 0) {
            queue[i] = code;
            return;
        }
    }
}

static uint8_t oldest(uint8_t *queue) {
    uint8_t code = queue[0];
    store(queue, load(queue) >> 8);
    return code;
}

/* ---- the commands --------------------------------------------------------------------------------------------------------------------------------------- */

/* What a request is worked on, and where its reply data goes. */
struct work {
    uint8_t *image, *memory, *reply;
    const uint8_t *data;
    size_t length;
    uint32_t total, mask;
};

/* A command's outcome: the number of reply bytes, FAILED + an error code, or QUIET. */
enum { FAILED = 256, QUIET = 512 };

struct survey {
    bool sound;
    uint32_t fields, used, first;
    uint8_t status;
};

static uint32_t blocks_of(uint8_t status) {
    return (uint32_t)(status & QS_STATUS_BLOCKS) + 1;
}

/* One walk of the status table: fields, used blocks, and the named field's first block and status. */
static struct survey survey(const struct work *w, uint8_t field) {
    const uint8_t *table = w->memory + QS_BLOCK * (size_t)w->total;
    struct survey s = {true, 0, 0, 0, 0};
    while (s.fields < w->total && (table[s.fields] & QS_STATUS_EXISTS) != 0) {
        if (s.fields == field) {
            s.first = s.used;
            s.status = table[s.fields];
        }
        s.used += blocks_of(table[s.fields]);
        s.fields++;
    }
    for (uint32_t i = s.fields; i < w->total; i++)
        s.sound &= table[i] == 0;
    s.sound &= s.used <= w->total;
    return s;
}

/* 02, Req 05: a cell that holds its byte already is not written. */
static void set_cell(uint8_t *cell, uint8_t wanted) {
    if (*cell != wanted)
        *cell = wanted;
}

static bool code_is(const struct work *w, uint8_t status, uint8_t code) {
    return w->image[QS_IMAGE_CODES + (status >> 4 & 3)] == code;
}

static unsigned read_position(const struct work *w) {
    if (w->image[QS_IMAGE_LOCKED])
        return FAILED + QS_ERROR_POSITION_LOCKED;
    uint32_t position = (load(w->image + QS_IMAGE_MEASURED) + load(w->image + QS_IMAGE_OFFSET)) & w->mask;
    for (int i = 0; i < 4; i++)
        w->reply[i] = (uint8_t)(position >> (24 - 8 * i));
    return 4;
}

static unsigned set_position(const struct work *w) {
    const uint8_t *d = w->data;
    uint32_t wanted = (uint32_t)d[0] << 24 | (uint32_t)d[1] << 16 | (uint32_t)d[2] << 8 | d[3];
    if (w->image[QS_IMAGE_LOCKED])
        return FAILED + QS_ERROR_POSITION_LOCKED;
    if (d[4] != w->image[QS_IMAGE_CODES])
        return FAILED + QS_ERROR_WRONG_CODE;
    if (wanted > w->mask)
        return FAILED + QS_ERROR_WRONG_ARGUMENT;
    store(w->image + QS_IMAGE_OFFSET, (wanted - load(w->image + QS_IMAGE_MEASURED)) & w->mask);
    return 0;
}

static unsigned read_counter(const struct work *w) {
    for (int i = 0; i < 3; i++)
        w->reply[i] = w->image[QS_IMAGE_COUNTER + 2 - i];
    return 3;
}

static unsigned increment_counter(const struct work *w) {
    uint32_t counter = (load_counter(w->image) + 1) & 0xFFFFFF;
    store_counter(w->image, counter);
    if (counter == 0)
        note(w->image, QS_ERROR_COUNTER_OVERFLOW);
    return 0;
}

static unsigned reset_counter(const struct work *w) {
    if (w->data[0] != w->image[QS_IMAGE_CODES])
        return FAILED + QS_ERROR_WRONG_CODE;
    store_counter(w->image, 0);
    return 0;
}

/* 4Ah and 4Bh: field, offset, count, code; the checks in each one's order. */
static unsigned read_or_store(const struct work *w, bool stores) {
    const uint8_t *d = w->data;
    uint32_t offset = d[1], count = d[2];
    struct survey s = survey(w, d[0]);
    if (!s.sound)
        return FAILED + QS_ERROR_TABLE_UNSOUND;
    if (d[0] >= s.fields)
        return FAILED + QS_ERROR_NO_FIELD;
    if ((s.status & QS_STATUS_CODE_WANTED) != 0 && !code_is(w, s.status, d[3]))
        return FAILED + QS_ERROR_WRONG_CODE;
    if (stores && (s.status & QS_STATUS_WRITE_ENABLED) == 0)
        return FAILED + QS_ERROR_READ_ONLY;
    if (!stores && count - 1 >= 128)
        return FAILED + QS_ERROR_WRONG_ARGUMENT;
    if (offset + count > QS_BLOCK * blocks_of(s.status))
        return FAILED + QS_ERROR_BEYOND_FIELD;
    uint8_t *place = w->memory + QS_BLOCK * s.first + offset;
    memcpy(w->reply, d, 3);
    if (stores) {
        for (uint32_t i = 0; i < count; i++)
            set_cell(place + i, d[4 + i]);
        return 3;
    }
    memcpy(w->reply + 3, place, count);
    return 3 + count;
}

static unsigned field_status(const struct work *w) {
    struct survey s = survey(w, w->data[0]);
    if (!s.sound)
        return FAILED + QS_ERROR_TABLE_UNSOUND;
    if (w->data[0] >= s.fields)
        return FAILED + QS_ERROR_NO_FIELD;
    w->reply[0] = w->data[0];
    w->reply[1] = s.status;
    return 2;
}

/* Blocks between the old end of a field and its new one become 00h, and its status is put down. */
static void change_end(const struct work *w, uint8_t field, uint32_t old_end, uint32_t new_end, uint8_t status) {
    uint32_t low = old_end < new_end ? old_end : new_end;
    uint32_t high = old_end < new_end ? new_end : old_end;
    for (size_t i = QS_BLOCK * (size_t)low; i < QS_BLOCK * (size_t)high; i++)
        set_cell(w->memory + i, 0);
    set_cell(w->memory + QS_BLOCK * (size_t)w->total + field, status);
}

static unsigned create_field(const struct work *w, const struct survey *s, uint8_t status) {
    uint32_t blocks = blocks_of(status);
    if (blocks > w->total - s->used)
        return FAILED + QS_ERROR_NO_ROOM;
    change_end(w, w->data[0], s->used, s->used + blocks, status);
    return 2;
}

static unsigned modify_field(const struct work *w, const struct survey *s, uint8_t status) {
    int change = (int)blocks_of(status) - (int)blocks_of(s->status);
    bool last = w->data[0] + 1u == s->fields;
    if ((change != 0 && !last) || change > (int)(w->total - s->used))
        return FAILED + QS_ERROR_NO_ROOM;
    uint32_t old_end = s->first + blocks_of(s->status);
    change_end(w, w->data[0], old_end, (uint32_t)((int)old_end + change), status);
    return 2;
}

static unsigned delete_field(const struct work *w, const struct survey *s, uint8_t status) {
    if (status != QS_DELETION_OF(s->status))
        return FAILED + QS_ERROR_WRONG_ARGUMENT;
    if (w->data[0] + 1u != s->fields)
        return FAILED + QS_ERROR_NO_ROOM;
    change_end(w, w->data[0], s->used, s->first, 0);
    return 2;
}

static unsigned change_field(const struct work *w) {
    uint8_t field = w->data[0], status = w->data[1], code = w->data[2];
    bool exists = (status & QS_STATUS_EXISTS) != 0;
    struct survey s = survey(w, field);
    if (!s.sound)
        return FAILED + QS_ERROR_TABLE_UNSOUND;
    bool creates = exists && field == s.fields;
    if (field >= s.fields && !creates)
        return FAILED + QS_ERROR_NO_FIELD;
    if (!code_is(w, creates ? status : s.status, code))
        return FAILED + QS_ERROR_WRONG_CODE;
    unsigned outcome = creates ? create_field(w, &s, status) : exists ? modify_field(w, &s, status) : delete_field(w, &s, status);
    if (outcome < FAILED)
        memcpy(w->reply, w->data, 2);
    return outcome;
}

static unsigned memory_status(const struct work *w) {
    struct survey s = survey(w, 0xFF);
    if (!s.sound)
        return FAILED + QS_ERROR_TABLE_UNSOUND;
    w->reply[0] = (uint8_t)(w->total - s.used);
    w->reply[1] = (uint8_t)s.fields;
    return 2;
}

static unsigned set_access_code(const struct work *w) {
    if (w->data[0] > 3)
        return FAILED + QS_ERROR_WRONG_ARGUMENT;
    if (w->image[QS_IMAGE_CODES + w->data[0]] != w->data[1])
        return FAILED + QS_ERROR_WRONG_CODE;
    w->image[QS_IMAGE_CODES + w->data[0]] = w->data[2];
    w->reply[0] = w->data[0];
    return 1;
}

static unsigned read_status(const struct work *w) {
    w->reply[0] = oldest(w->image + QS_IMAGE_WAITING);
    return 1;
}

static unsigned read_type_label(const struct work *w) {
    memcpy(w->reply, w->image + QS_IMAGE_LABEL + QS_LABEL_TYPE, QS_LABEL_TYPE_SIZE);
    return QS_LABEL_TYPE_SIZE;
}

/* Serial number, version and date stand one after the other. */
static unsigned read_version(const struct work *w) {
    const unsigned length = QS_LABEL_LENGTH - QS_LABEL_SERIAL;
    memcpy(w->reply, w->image + QS_IMAGE_LABEL + QS_LABEL_SERIAL, length);
    return length;
}

static unsigned set_address(const struct work *w) {
    unsigned wanted = w->data[0] - 0x40u;
    if (w->data[1] != w->image[QS_IMAGE_CODES])
        return FAILED + QS_ERROR_WRONG_CODE;
    if (wanted >= 32)
        return FAILED + QS_ERROR_WRONG_ARGUMENT;
    w->image[QS_IMAGE_ADDRESS] = (uint8_t)wanted;
    return 0;
}

static bool store_has_its_length(const struct work *w) {
    return w->length >= 5 && w->length <= 132 && w->length == 4u + w->data[2];
}

/* Steps 5 to 7. */
static unsigned command(const struct work *w, uint8_t number) {
    const unsigned wrong_length = FAILED + QS_ERROR_WRONG_LENGTH;
    switch (number) {
    case QS_READ_POSITION: return w->length == 0 ? read_position(w) : wrong_length;
    case QS_SET_POSITION: return w->length == 5 ? set_position(w) : wrong_length;
    case QS_READ_COUNTER: return w->length == 0 ? read_counter(w) : wrong_length;
    case QS_INCREMENT_COUNTER: return w->length == 0 ? increment_counter(w) : wrong_length;
    case QS_RESET_COUNTER: return w->length == 1 ? reset_counter(w) : wrong_length;
    case QS_READ_DATA: return w->length == 4 ? read_or_store(w, false) : wrong_length;
    case QS_STORE_DATA: return store_has_its_length(w) ? read_or_store(w, true) : wrong_length;
    case QS_FIELD_STATUS: return w->length == 1 ? field_status(w) : wrong_length;
    case QS_CREATE_FIELD: return w->length == 3 ? change_field(w) : wrong_length;
    case QS_MEMORY_STATUS: return w->length == 0 ? memory_status(w) : wrong_length;
    case QS_SET_ACCESS_CODE: return w->length == 3 ? set_access_code(w) : wrong_length;
    case QS_READ_STATUS: return w->length == 0 ? read_status(w) : wrong_length;
    case QS_READ_TYPE_LABEL: return w->length == 0 ? read_type_label(w) : wrong_length;
    case QS_SET_ADDRESS: return w->length == 2 ? set_address(w) : wrong_length;
    case QS_READ_VERSION: return w->length == 0 ? read_version(w) : wrong_length;
    case QS_RESET:
        if (w->length != 0)
            return wrong_length;
        store(w->image + QS_IMAGE_WAITING, 0);
        return QUIET;
    default: return FAILED + QS_ERROR_UNKNOWN_COMMAND;
    }
}

/* ---- frames --------------------------------------------------------------------------------------------------------------------------------------------- */

/* Steps 2 to 7. */
static unsigned judged(const struct work *w, uint8_t number) {
    if (w->image[QS_IMAGE_PARITY])
        return FAILED + QS_ERROR_PARITY;
    if (w->image[QS_IMAGE_SUM] != 0)
        return FAILED + QS_ERROR_CHECKSUM;
    if (w->image[QS_IMAGE_LONGER])
        return FAILED + QS_ERROR_WRONG_LENGTH;
    return command(w, number);
}

static uint8_t address_byte(const uint8_t *image) {
    return (uint8_t)(0x40 + image[QS_IMAGE_ADDRESS]);
}

/* The open frame is over: its reply's length. */
static uint64_t closed(uint8_t *image, uint8_t *memory, uint8_t *room) {
    const uint8_t *kept = image + QS_IMAGE_KEPT;
    size_t n = image[QS_IMAGE_KEPT_NUMBER];
    if (n < 3 || (kept[0] != address_byte(image) && kept[0] != 0xFF))
        return 0;
    struct work w = {image, memory, room + 2, kept + 2, n - 3, image[QS_IMAGE_TOTAL], UINT32_MAX >> (32 - image[QS_IMAGE_BITS])};
    uint8_t number = kept[1];
    unsigned outcome = judged(&w, number);
    if (outcome == QUIET)
        return 0;
    size_t length = outcome;
    if (outcome >= FAILED) {
        room[2] = (uint8_t)(outcome - FAILED);
        number = QS_READ_STATUS;
        length = 1;
    }
    room[0] = address_byte(image); /* after an accepted 55h the new one: 000, "Set Encoder Address" */
    room[1] = image[QS_IMAGE_WAITING] != 0 ? number | QS_WARNING_BIT : number;
    uint8_t sum = 0;
    for (size_t i = 0; i < length + 2; i++)
        sum ^= room[i];
    room[length + 2] = sum;
    return length + 3;
}

static uint64_t refusal(const uint8_t *image, uint64_t image_length, uint64_t memory_length, uint64_t room_length) {
    if (!image_is_good(image, image_length))
        return QS_R1;
    if (memory_length != QS_MEMORY_LENGTH(image[QS_IMAGE_TOTAL]))
        return QS_R2;
    return room_length < QS_REPLY_ROOM ? QS_R3 : 0;
}

static uint32_t full_pause(const uint8_t *image) {
    return (uint32_t)image[QS_IMAGE_PAUSE] * image[QS_IMAGE_TICKS];
}

static uint32_t since_last(const uint8_t *image, uint32_t tick) {
    return tick - load(image + QS_IMAGE_LAST);
}

static uint64_t answer(uint32_t sleep, uint64_t reply) {
    return (uint64_t)sleep << 32 | reply;
}

/* ---- the calls ------------------------------------------------------------------------------------------------------------------------------------------ */

uint64_t hand_fresh(uint32_t total, uint32_t bits, uint32_t address, uint32_t ticks, uint32_t pause, const uint8_t *label, uint64_t label_length,
                    uint8_t *image, uint64_t image_length) {
    if (image_length != QS_IMAGE_LENGTH || label_length != QS_LABEL_LENGTH || !plate_is_good(total, bits, address, ticks, pause))
        return QS_R1;
    memset(image, 0, QS_IMAGE_LENGTH);
    image[QS_IMAGE_LAYOUT] = QS_LAYOUT_NUMBER;
    image[QS_IMAGE_TOTAL] = (uint8_t)total;
    image[QS_IMAGE_BITS] = (uint8_t)bits;
    image[QS_IMAGE_PLATE_ADDRESS] = (uint8_t)address;
    image[QS_IMAGE_TICKS] = (uint8_t)ticks;
    image[QS_IMAGE_PAUSE] = (uint8_t)pause;
    memcpy(image + QS_IMAGE_LABEL, label, QS_LABEL_LENGTH);
    memset(image + QS_IMAGE_CODES, 0x55, 4);
    image[QS_IMAGE_ADDRESS] = (uint8_t)address;
    return 0;
}

uint64_t hand_character(uint8_t *image, uint64_t image_length, uint32_t tick, uint8_t value, uint8_t parity, uint8_t *memory, uint64_t memory_length,
                        uint8_t *room, uint64_t room_length) {
    uint64_t refused = refusal(image, image_length, memory_length, room_length);
    if (refused != 0)
        return answer(QS_SLEEP_REFUSED, refused);
    uint64_t length = 0;
    uint32_t pause = full_pause(image);
    if (!image[QS_IMAGE_OPEN]) {
        clear_frame(image);
    } else if (since_last(image, tick) >= pause) {
        length = closed(image, memory, room);
        clear_frame(image);
    }
    uint8_t n = image[QS_IMAGE_KEPT_NUMBER];
    if (n < QS_KEPT_BYTES) {
        image[QS_IMAGE_KEPT + n] = value;
        image[QS_IMAGE_KEPT_NUMBER] = n + 1;
    } else {
        image[QS_IMAGE_LONGER] = 1;
    }
    image[QS_IMAGE_OPEN] = 1;
    image[QS_IMAGE_SUM] ^= value;
    image[QS_IMAGE_PARITY] |= parity != 0;
    store(image + QS_IMAGE_LAST, tick);
    return answer(pause, length);
}

uint64_t hand_poll(uint8_t *image, uint64_t image_length, uint32_t tick, uint8_t *memory, uint64_t memory_length, uint8_t *room, uint64_t room_length) {
    uint64_t refused = refusal(image, image_length, memory_length, room_length);
    if (refused != 0)
        return answer(QS_SLEEP_REFUSED, refused);
    if (!image[QS_IMAGE_OPEN])
        return answer(QS_NO_FRAME_OPEN, 0);
    uint32_t pause = full_pause(image), since = since_last(image, tick);
    if (since < pause)
        return answer(pause - since, 0);
    uint64_t length = closed(image, memory, room);
    clear_frame(image);
    return answer(QS_NO_FRAME_OPEN, length);
}

uint64_t hand_measured(uint8_t *image, uint64_t image_length, uint32_t position) {
    if (!image_is_good(image, image_length))
        return QS_R1;
    store(image + QS_IMAGE_MEASURED, position);
    return 0;
}

uint64_t hand_fault(uint8_t *image, uint64_t image_length, uint8_t code) {
    if (!image_is_good(image, image_length))
        return QS_R1;
    note(image, code);
    return 0;
}

uint64_t hand_power_on(uint8_t *image, uint64_t image_length) {
    if (!image_is_good(image, image_length))
        return QS_R1;
    memset(image + QS_IMAGE_WAITING, 0, QS_IMAGE_KEPT - QS_IMAGE_WAITING);
    return 0;
}
