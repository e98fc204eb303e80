/* Every kind of call that closes no frame, on both boards, to count the instructions of each: calls character|poll|measured|fault|power_on|fresh. */
#include "both.h"

static uint64_t label_length = sizeof label, image_length = sizeof image, memory_given, room_length = sizeof room;
static uint32_t tick; /* too early to close a frame */
static uint8_t parity, code;

CALLS(character, image, image_length, tick, 0x41, parity, memory, memory_given, room, room_length)
CALLS(poll, image, image_length, tick, memory, memory_given, room, room_length)
CALLS(measured, image, image_length, tick)
CALLS(fault, image, image_length, code)
CALLS(power_on, image, image_length)
CALLS(fresh, total, BITS, PLATE_ADDRESS, TICKS, pause_bits, label, label_length, image, image_length)

#define BY_CODES(row) (codes_wait == 0 ? row : row " while codes wait")

static void set_open_image(uint8_t kept) {
    set_image();
    image[QS_IMAGE_OPEN] = 1;
    image[QS_IMAGE_KEPT_NUMBER] = kept;
    memset(image + QS_IMAGE_KEPT, 0x41, kept);
}

/* ---- refused calls -------------------------------------------------------------------------------------------------------------------------------------- */

/* R1: a byte of the image beyond its limit, or another length. */
static void refused_image(const char *row, board_call library, board_call hand) {
    static const struct {
        uint8_t place, value;
    } BEYOND[] = {
        {QS_IMAGE_LAYOUT, QS_LAYOUT_NUMBER + 1}, {QS_IMAGE_TOTAL, 0},    {QS_IMAGE_TOTAL, TOTAL + 1}, {QS_IMAGE_BITS, 33},
        {QS_IMAGE_PLATE_ADDRESS, 32},            {QS_IMAGE_TICKS, 3},    {QS_IMAGE_PAUSE, 54},        {QS_IMAGE_ADDRESS, 32},
        {QS_IMAGE_ADDRESS, 255},                 {QS_IMAGE_OFFSET + 3, 1},
        {QS_IMAGE_LOCKED, 2},                    {QS_IMAGE_PARITY, 2},   {QS_IMAGE_KEPT_NUMBER, QS_KEPT_BYTES + 1},
        {QS_IMAGE_WAITING, QS_FAULT_LOCKS_A},    {QS_IMAGE_WAITING + 1, QS_FAULT_LOCKS_B}, /* also behind an empty place */
        {QS_IMAGE_WAITING + 3, 0x1E},            {QS_IMAGE_WAITING + 3, QS_FAULT_LOCKS_B}, /* 1Eh waits already, or the place before is empty */
    };
    for (size_t i = 0; i < sizeof BEYOND / sizeof *BEYOND; i++) {
        set_open_image(3);
        image[BEYOND[i].place] = BEYOND[i].value;
        on_both(row, REFUSED, library, hand);
    }
    set_open_image(3);
    image_length--;
    on_both(row, REFUSED, library, hand);
    image_length++;
}

/* R2 and R3: another length of memory, too little room. */
static void refused_buffers(const char *row, board_call library, board_call hand) {
    set_open_image(3);
    memory_given--;
    on_both(row, REFUSED, library, hand);
    memory_given++;
    room_length--;
    on_both(row, REFUSED, library, hand);
    room_length++;
}

static void refused_characters(void) {
    refused_image("character that is refused", library_character, hand_written_character);
    refused_buffers("character that is refused", library_character, hand_written_character);
}

static void refused_polls(void) {
    refused_image("poll that is refused", library_poll, hand_written_poll);
    refused_buffers("poll that is refused", library_poll, hand_written_poll);
}

static void refused_positions(void) { refused_image("measured position that is refused", library_measured, hand_written_measured); }
static void refused_codes(void) { refused_image("fault code that is refused", library_fault, hand_written_fault); }
static void refused_power_ons(void) { refused_image("power-on that is refused", library_power_on, hand_written_power_on); }

static void refused_fresh_images(void) {
    const char *row = "fresh image that is refused";
    memset(image, 0xA5, sizeof image);
    image_length--;
    on_both(row, REFUSED, library_fresh, hand_written_fresh);
    image_length++;
    label_length--;
    on_both(row, REFUSED, library_fresh, hand_written_fresh);
    label_length++;
    pause_bits++;
    on_both(row, REFUSED, library_fresh, hand_written_fresh);
}

/* ---- calls that are taken ------------------------------------------------------------------------------------------------------------------------------- */

static void characters(void) {
    for (parity = 0; parity <= 1; parity++) {
        set_image();
        ON_BOTH(BY_CODES("character that opens a frame"), character);
        for (uint8_t kept = 1; kept < QS_KEPT_BYTES; kept++) {
            set_open_image(kept);
            ON_BOTH(BY_CODES("character that is kept"), character);
        }
        set_open_image(QS_KEPT_BYTES);
        ON_BOTH(BY_CODES("character past the 135th"), character);
        image[QS_IMAGE_LONGER] = 1;
        ON_BOTH(BY_CODES("character past the 135th"), character);
    }
}

static void polls(void) {
    set_image();
    ON_BOTH(BY_CODES("poll, no frame open"), poll);
    set_open_image(3);
    ON_BOTH(BY_CODES("poll before the pause is over"), poll);
}

static void measured_positions(void) {
    set_image();
    ON_BOTH(BY_CODES("measured position"), measured);
}

static const char *fault_row(void) {
    if (code == 0)
        return BY_CODES("fault code 00h");
    if (code == QS_FAULT_LOCKS_A || code == QS_FAULT_LOCKS_B)
        return BY_CODES("fault code that locks");
    if (memchr(image + QS_IMAGE_WAITING, code, QS_IMAGE_WAITING_SIZE) != NULL)
        return "fault code that waits already";
    if (codes_wait == 4)
        return "fault code with four waiting";
    return codes_wait == 0 ? "first fault code" : "further fault code";
}

/* The codes that may wait, one that never does, those that lock, and 00h. */
static void fault_codes(void) {
    static const uint8_t CODES[] = {0x30, 0x1E, 0x1F, 0x20, 0x21, QS_FAULT_LOCKS_A, QS_FAULT_LOCKS_B, 0x00};
    for (size_t i = 0; i < sizeof CODES; i++) {
        set_image();
        code = CODES[i];
        ON_BOTH(fault_row(), fault);
    }
}

static void power_ons(void) {
    set_image();
    ON_BOTH(BY_CODES("power-on"), power_on);
    set_open_image(3);
    image[QS_IMAGE_LOCKED] = 1;
    ON_BOTH(BY_CODES("power-on"), power_on);
}

/* Over bytes that were never set. */
static void fresh_images(void) {
    memset(image, 0xA5, sizeof image);
    ON_BOTH("fresh image", fresh);
}

/* ---- all of one entry ----------------------------------------------------------------------------------------------------------------------------------- */

static const struct {
    const char *entry;
    void (*taken)(void), (*refused)(void);
} ENTRIES[] = {
    {"character", characters, refused_characters}, {"poll", polls, refused_polls},         {"measured", measured_positions, refused_positions},
    {"fault", fault_codes, refused_codes},         {"power_on", power_ons, refused_power_ons}, {"fresh", fresh_images, refused_fresh_images},
};

static void on_each_board(void (*calls)(void)) {
    for (codes_wait = 0; codes_wait <= 4; codes_wait++) {
        for (int small = 0; small <= 1; small++) {
            set_plate(small ? SMALL_TOTAL : TOTAL, small ? SHORT_PAUSE : PAUSE);
            memory_given = memory_length;
            tick = closing_tick - 1;
            calls();
        }
    }
}

int main(int count, char **words) {
    for (size_t i = 0; count == 2 && i < sizeof ENTRIES / sizeof *ENTRIES; i++) {
        if (strcmp(words[1], ENTRIES[i].entry) == 0) {
            on_each_board(ENTRIES[i].taken);
            on_each_board(ENTRIES[i].refused);
            return 0;
        }
    }
    fprintf(stderr, "calls character|poll|measured|fault|power_on|fresh\n");
    return 2;
}
