/* A small firmware host for one board, to be copied: a receive queue, a clock, an alarm by which it sleeps, the lent buffers, and a flash that keeps what must
 * last. main plays the drive, the supply and the timer that wakes the host: it sends the frames of the bench sheet, gives the board another address, lets the
 * line echo, takes the supply away, prints all with the replies, counts how often the host woke, and ends in 1 if a reply is not the one that belongs there. */
#include "quicksetter.h"

#include <inttypes.h>
#include <stdbool.h>
#include <stddef.h>
#include <stdio.h>
#include <string.h>

/* ---- the clock ------------------------------------------------------------------------------------------------------------------------------------------ */

/* A tick is 1/38400 s, 24 ticks in 625 microseconds. From 64 bits of microseconds the ticks wrap around at exactly 2^32; from 32 bits they would jump back
 * every 71 minutes, and a frame that is open then would never end. */
static uint32_t ticks_of_microseconds(uint64_t microseconds) {
    return (uint32_t)(microseconds * 24 / 625);
}

/* A 32-bit timer widened to 64 bits: right as long as it is read once in 71 minutes. While a frame is open the alarm sees to that; while none is, the host may
 * sleep for longer, and the turns of the timer that it then misses matter to no gap. */
static uint64_t widened(uint64_t before, uint32_t timer) {
    return before + (uint32_t)(timer - (uint32_t)before);
}

/* ---- the flash: what is there when the supply comes back ------------------------------------------------------------------------------------------------ */

enum { LARGEST_TOTAL = 112, QUEUE_PLACES = 64 };

/* A driver would keep two of these and write them in turn, so that a supply that goes during a write leaves the older one whole. */
struct flash {
    bool written;
    uint8_t lasting[QS_LASTING_LENGTH];
    uint32_t lasting_sum;
    uint8_t memory[QS_MEMORY_LENGTH(LARGEST_TOTAL)];
    uint32_t memory_sum;
    unsigned writes; /* so far: each wears it */
};

/* qs_restart cannot tell wrong bytes from right ones, so the flash has sums (FNV-1a). */
static uint32_t sum_of(const uint8_t *bytes, uint64_t length) {
    uint32_t sum = 2166136261u;
    for (uint64_t i = 0; i < length; i++)
        sum = (sum ^ bytes[i]) * 16777619u;
    return sum;
}

/* ---- the host: what goes into a firmware ---------------------------------------------------------------------------------------------------------------- */

struct plate {
    uint32_t total, bits, address, ticks, pause;
    const uint8_t *label; /* QS_LABEL_LENGTH bytes */
};

/* What the drive is told by 52h and 56h. It does not change, so it is in the program; each board's own serial number would stand in a part of the flash that
 * is written once. The UART settings agree with 4 ticks a bit and a pause of 55: E4h is 9600 baud, even parity, the long pause. 80h blocks are all of a part of
 * 2048 bytes, of which 70h are for fields. */
static const uint8_t LABEL[QS_LABEL_LENGTH] = {
    [QS_LABEL_TYPE] = 0xE4, 0x07, 0x80, 0x00,
    [QS_LABEL_SERIAL] = 'Q', 'S', '0', '0', '0', '4', '7', '1', '1',
    [QS_LABEL_VERSION] = 'e', 'x', 'a', 'm', 'p', 'l', 'e', ' ', '1', '.', '0', /* 00h behind it, as 000 has it */
    [QS_LABEL_DATE] = '0', '1', '.', '0', '2', '.', '2', '6',
};

struct received {
    uint32_t tick;
    uint8_t value;
    uint8_t parity;
};

/* One writer (the receive interrupt), one reader (the main loop): each moves only its own end. */
struct queue {
    struct received places[QUEUE_PLACES];
    volatile unsigned written, taken;
};

struct host {
    uint8_t image[QS_IMAGE_LENGTH];
    uint8_t memory[QS_MEMORY_LENGTH(LARGEST_TOTAL)];
    uint8_t room[QS_REPLY_ROOM];
    uint64_t memory_length;
    struct queue queue;
    struct flash *flash;
    uint64_t microseconds;
    uint32_t called;       /* the tick of the last character or poll */
    uint32_t sleep;        /* for how many ticks from there the host may sleep, or QS_NO_FRAME_OPEN */
    volatile bool sending; /* while the host's own reply is on the line */
};

static uint32_t host_now(struct host *host, uint32_t timer) {
    host->microseconds = widened(host->microseconds, timer);
    return ticks_of_microseconds(host->microseconds);
}

static bool lasting_is_whole(const struct flash *flash) {
    return flash->lasting_sum == sum_of(flash->lasting, QS_LASTING_LENGTH);
}

static bool memory_is_whole(const struct host *host) {
    return host->flash->memory_sum == sum_of(host->flash->memory, host->memory_length);
}

/* Whether the flash has all of it already: a request may store what was there (quicksetter.h, "Wear"). */
static bool is_in_flash(const struct host *host) {
    const struct flash *flash = host->flash;
    return flash->written && lasting_is_whole(flash) && memory_is_whole(host) &&
           memcmp(flash->lasting, host->image + QS_IMAGE_LASTING, QS_LASTING_LENGTH) == 0 && memcmp(flash->memory, host->memory, host->memory_length) == 0;
}

/* What the last call changed goes to the flash. */
static void host_keep(struct host *host) {
    struct flash *flash = host->flash;
    if (is_in_flash(host))
        return;
    memcpy(flash->lasting, host->image + QS_IMAGE_LASTING, QS_LASTING_LENGTH);
    flash->lasting_sum = sum_of(flash->lasting, QS_LASTING_LENGTH);
    memcpy(flash->memory, host->memory, host->memory_length);
    flash->memory_sum = sum_of(flash->memory, host->memory_length);
    flash->written = true;
    flash->writes++;
}

enum start { NEW_BOARD, RESTARTED, DAMAGED, NO_PLATE };

static uint64_t fresh_image(struct host *host, struct plate p) {
    return qs_fresh(p.total, p.bits, p.address, p.ticks, p.pause, p.label, QS_LABEL_LENGTH, host->image, sizeof host->image);
}

static uint64_t restarted_image(struct host *host, struct plate p) {
    return qs_restart(p.total, p.bits, p.address, p.ticks, p.pause, p.label, QS_LABEL_LENGTH, host->flash->lasting, QS_LASTING_LENGTH, host->image,
                      sizeof host->image);
}

/* 000's internal checksum error. A drive must not trust the position of a board whose offset is lost; a host that can tell no other way locks it too, by
 * QS_FAULT_LOCKS_A. */
enum { INTERNAL_CHECKSUM_ERROR = 0x06 };

/* What was damaged starts fresh, what is whole stays, and the drive is told by a fault code. Where the lasting bytes are lost the address is the plate's again,
 * and on a line with several boards the drive must look for this one. */
static enum start damaged_start(struct host *host, struct plate plate) {
    if (memory_is_whole(host))
        memcpy(host->memory, host->flash->memory, host->memory_length);
    if (!lasting_is_whole(host->flash) || restarted_image(host, plate) != 0)
        (void)fresh_image(host, plate);
    (void)qs_fault(host->image, sizeof host->image, INTERNAL_CHECKSUM_ERROR);
    return DAMAGED;
}

static enum start image_and_memory(struct host *host, struct plate plate) {
    if (fresh_image(host, plate) != 0)
        return NO_PLATE;
    if (!host->flash->written)
        return NEW_BOARD;
    if (!lasting_is_whole(host->flash) || !memory_is_whole(host) || restarted_image(host, plate) != 0)
        return damaged_start(host, plate);
    memcpy(host->memory, host->flash->memory, host->memory_length);
    return RESTARTED;
}

/* Called when the supply comes on, with the position that is measured then. */
static enum start host_start(struct host *host, struct plate plate, struct flash *flash, uint32_t position) {
    memset(host, 0, sizeof *host);
    host->flash = flash;
    host->memory_length = plate.total <= LARGEST_TOTAL ? QS_MEMORY_LENGTH(plate.total) : 0;
    host->sleep = QS_NO_FRAME_OPEN;
    enum start start = image_and_memory(host, plate);
    if (start != NO_PLATE)
        (void)qs_measured(host->image, sizeof host->image, position);
    return start;
}

/* The receive interrupt: a character has ended. On a half-duplex line the receiver hears the host's own reply: that is not handed in. A full queue loses a
 * character, as a full receive register would. */
static void host_received(struct host *host, uint32_t timer, uint8_t value, bool parity_fault) {
    struct queue *queue = &host->queue;
    if (host->sending || queue->written - queue->taken == QUEUE_PLACES)
        return;
    queue->places[queue->written % QUEUE_PLACES] = (struct received){host_now(host, timer), value, parity_fault};
    queue->written++;
}

/* Whether the main loop may sleep on: no character waits, and the pause of an open frame is not over. A firmware calls it with interrupts off, and goes to
 * sleep before they are on again, with the timer's alarm set to the tick host->called + host->sleep if a frame is open: a character that ends between the look
 * at the queue and the sleep would else lie in the queue until the alarm, or for ever. */
static bool host_may_sleep(struct host *host, uint32_t timer) {
    if (host->queue.taken != host->queue.written)
        return false;
    return host->sleep == QS_NO_FRAME_OPEN || host_now(host, timer) - host->called < host->sleep;
}

/* What a character or a poll at a tick told: the reply's length, 0 for none or a refusal, and how long the host may sleep. */
static uint64_t told(struct host *host, uint32_t tick, uint64_t result) {
    host->called = tick;
    host->sleep = QS_IS_REFUSED(result) ? QS_NO_FRAME_OPEN : QS_SLEEP(result);
    return QS_IS_REFUSED(result) ? 0 : QS_REPLY(result);
}

static uint64_t take_character(struct host *host) {
    struct received r = host->queue.places[host->queue.taken % QUEUE_PLACES];
    host->queue.taken++;
    return told(host, r.tick,
                qs_character(host->image, sizeof host->image, r.tick, r.value, r.parity, host->memory, host->memory_length, host->room, sizeof host->room));
}

static uint64_t poll_at(struct host *host, uint32_t now) {
    return told(host, now, qs_poll(host->image, sizeof host->image, now, host->memory, host->memory_length, host->room, sizeof host->room));
}

/* One turn of the main loop, when something woke it: takes the oldest character, or polls if none waits. Returns the length of the reply in host->room that is
 * now to be sent, 0 for none. What the reply acknowledges is in the flash before it is sent. A reply to a frame that the next character closed is not sent: the
 * master is sending already. The lengths are the host's own and the image is what the last call left, so no refusal can come; if one does, the board keeps
 * silent. */
static uint64_t host_turn(struct host *host, uint32_t timer) {
    /* The clock is read before the queue: a character that ends in between is then never older than the poll. */
    uint32_t now = host_now(host, timer);
    bool line_is_busy = host->queue.taken != host->queue.written;
    uint64_t length = line_is_busy ? take_character(host) : poll_at(host, now);
    if (length == 0)
        return 0;
    if (QS_MAY_CHANGE(host->room[1]))
        host_keep(host);
    return line_is_busy ? 0 : length;
}

/* ---- the line and the drive at its other end ------------------------------------------------------------------------------------------------------------ */

static const struct plate SHEET = {.total = 112, .bits = 24, .address = 0, .ticks = 4, .pause = 55, .label = LABEL};
static const struct plate EIGHT_BLOCKS = {.total = 8, .bits = 24, .address = 0, .ticks = 4, .pause = 55, .label = LABEL};

enum { BIT_MICROSECONDS = 105, CHARACTER_BITS = 11, PAUSE_BITS = 55, PATIENCE_BITS = 60 };

/* The host's 32-bit microsecond timer. */
static uint32_t timer;

/* How often the host wanted to send while the drive did; beats of a timer of one bit time; how often the host was woken. */
static unsigned collisions, beats, wake_ups;

static void pass(unsigned bits) {
    timer += bits * BIT_MICROSECONDS;
    beats += bits;
}

/* Character and alarm wake the host; on any other beat it sleeps on. Returns the length of the reply that it then wants to send. */
static uint64_t beat(struct host *host) {
    if (host_may_sleep(host, timer))
        return 0;
    wake_ups++;
    return host_turn(host, timer);
}

/* The host sends its reply, and the half-duplex line brings each character back to it. */
static void send_reply(struct host *host, uint64_t length) {
    host->sending = true;
    for (uint64_t i = 0; i < length; i++) {
        pass(CHARACTER_BITS);
        host_received(host, timer, host->room[i], false);
    }
    host->sending = false;
}

static void send_frame(struct host *host, const uint8_t *frame, uint64_t length) {
    for (uint64_t i = 0; i < length; i++) {
        pass(CHARACTER_BITS);
        host_received(host, timer, frame[i], false);
        collisions += beat(host) != 0;
    }
}

/* Sends a frame at the line's full speed and waits for the reply. Returns its length, 0 for silence. */
static uint64_t exchange(struct host *host, const uint8_t *frame, uint64_t length) {
    uint64_t replied = 0;
    send_frame(host, frame, length);
    for (unsigned waited = 0; replied == 0 && waited < PATIENCE_BITS; waited++) {
        pass(1);
        replied = beat(host);
    }
    if (replied != 0)
        send_reply(host, replied);
    return replied;
}

static uint64_t bytes_of(const char *hex, uint8_t *bytes) {
    uint64_t n = 0;
    unsigned value;
    int used;
    while (sscanf(hex, "%2x%n", &value, &used) == 1) {
        bytes[n++] = (uint8_t)value;
        hex += used;
    }
    return n;
}

static void print_bytes(const uint8_t *bytes, uint64_t n) {
    for (uint64_t i = 0; i < n; i++)
        printf(" %02X", bytes[i]);
}

/* What is sent, and what is to come back. True if it does. */
static bool asked(struct host *host, const char *request, const char *reply) {
    uint8_t sent[QS_REQUEST_BUFFER], expected[QS_REPLY_ROOM];
    uint64_t sent_length = bytes_of(request, sent);
    uint64_t expected_length = bytes_of(reply, expected);
    uint64_t length = exchange(host, sent, sent_length);
    bool same = length == expected_length && memcmp(host->room, expected, length) == 0;
    printf(" ");
    print_bytes(sent, sent_length);
    printf(" ->");
    if (length == 0)
        printf(" silence");
    print_bytes(host->room, length);
    printf("%s\n", same ? "" : "   NOT WHAT BELONGS THERE");
    return same;
}

static bool started(struct host *host, struct plate plate, struct flash *flash, uint32_t position, enum start wanted, const char *title) {
    enum start start = host_start(host, plate, flash, position);
    printf("%s\n", title);
    if (start == DAMAGED)
        printf("  what must last is damaged: fault %02Xh is noted, and the damaged part starts fresh\n", INTERNAL_CHECKSUM_ERROR);
    if (start != wanted)
        printf("  NOT THE START THAT BELONGS THERE\n");
    return start == wanted;
}

/* ---- the bench sheet ------------------------------------------------------------------------------------------------------------------------------------ */

static bool fields_of_the_sheet(struct host *host, struct flash *flash) {
    bool good = started(host, SHEET, flash, 0, NEW_BOARD, "112 blocks: 000's own example, 002's fields");
    good &= asked(host, "40 4E 0E", "40 4E 70 00 7E");
    good &= asked(host, "FF 4E B1", "40 4E 70 00 7E");
    good &= asked(host, "41 4E 0F", "");
    good &= asked(host, "40 4D 00 C9 55 91", "40 4D 00 C9 C4");
    good &= asked(host, "40 4D 01 E0 55 B9", "40 4D 01 E0 EC");
    return good;
}

static bool pallet_of_the_sheet(struct host *host, struct flash *flash) {
    bool good = started(host, EIGHT_BLOCKS, flash, 0, NEW_BOARD, "8 blocks: a field cut from eight to two");
    good &= asked(host, "40 4D 00 C7 55 9F", "40 4D 00 C7 CA");
    good &= asked(host, "40 4E 0E", "40 4E 00 01 0F");
    good &= asked(host, "40 4D 00 C1 55 99", "40 4D 00 C1 CC");
    good &= asked(host, "40 4E 0E", "40 4E 06 01 09");
    good &= asked(host, "40 4D 01 C6 55 9F", "40 50 10 00");
    good &= asked(host, "40 4D 01 C5 55 9C", "40 4D 01 C5 C9");
    return good;
}

static bool faults_of_the_sheet(struct host *host, struct flash *flash) {
    bool good = started(host, SHEET, flash, 0, NEW_BOARD, "Faulty frames, the counter's end, the position, the reset without a reply");
    good &= asked(host, "40 4E 0F", "40 50 0A 1A");
    good &= asked(host, "40 44 04", "40 50 0B 1B");
    memset(host->image + QS_IMAGE_COUNTER, 0xFF, QS_IMAGE_COUNTER_SIZE);
    good &= asked(host, "40 47 07", "40 C7 87");
    good &= asked(host, "40 50 10", "40 50 08 18");
    (void)qs_measured(host->image, sizeof host->image, 5);
    good &= asked(host, "40 43 00 00 00 02 55 54", "40 43 03");
    (void)qs_measured(host->image, sizeof host->image, 9);
    good &= asked(host, "40 42 02", "40 42 00 00 00 06 04");
    (void)qs_fault(host->image, sizeof host->image, QS_FAULT_LOCKS_A);
    good &= asked(host, "40 42 02", "40 50 02 12");
    (void)qs_power_on(host->image, sizeof host->image);
    good &= asked(host, "40 42 02", "40 42 00 00 00 06 04");
    good &= asked(host, "40 53 13", "");
    return good;
}

/* The timer wraps around between two characters of a frame; the tick does not. */
static bool wrap_inside_a_frame(struct host *host) {
    printf("The microsecond timer wraps around inside a frame\n");
    timer = UINT32_MAX - 2 * CHARACTER_BITS * BIT_MICROSECONDS;
    return asked(host, "40 42 02", "40 42 00 00 00 06 04");
}

/* ---- what must last ------------------------------------------------------------------------------------------------------------------------------------- */

/* A position is set, the counter counts, a code is changed, a field is made and filled; filled once more, it leaves the flash alone. */
static bool things_to_keep(struct host *host, struct flash *flash) {
    bool good = started(host, EIGHT_BLOCKS, flash, 5, NEW_BOARD, "What must last: it is stored and acknowledged");
    good &= asked(host, "40 43 00 00 00 02 55 54", "40 43 03");
    good &= asked(host, "40 47 07", "40 47 07");
    good &= asked(host, "40 47 07", "40 47 07");
    good &= asked(host, "40 4F 01 55 A7 FC", "40 4F 01 0E");
    good &= asked(host, "40 4D 00 D8 A7 72", "40 4D 00 D8 D5");
    good &= asked(host, "40 4B 00 02 03 A7 11 22 33 AD", "40 4B 00 02 03 0A");
    unsigned writes = flash->writes;
    good &= asked(host, "40 4B 00 02 03 A7 11 22 33 AD", "40 4B 00 02 03 0A");
    return good && flash->writes == writes;
}

/* The supply goes: what stood in the host's RAM is gone, and the shaft is turned before it comes back. */
static bool kept_over_a_restart(struct host *host, struct flash *flash) {
    (void)qs_fault(host->image, sizeof host->image, 0x1E);
    memset(host, 0xA5, sizeof *host);
    bool good = started(host, EIGHT_BLOCKS, flash, 9, RESTARTED, "The supply was off: all of it is there, the waiting fault code is not");
    good &= asked(host, "40 50 10", "40 50 00 10");
    good &= asked(host, "40 42 02", "40 42 00 00 00 06 04");
    good &= asked(host, "40 46 06", "40 46 00 00 02 04");
    good &= asked(host, "40 4A 00 02 03 A7 AC", "40 4A 00 02 03 11 22 33 0B");
    good &= asked(host, "40 4A 00 02 03 55 5E", "40 50 0F 1F");
    return good;
}

/* The next request comes before the host has polled: its first character closes the 47h, whose reply is not sent. It counts all the same, and lasts. */
static bool late_reply_is_kept(struct host *host, struct flash *flash) {
    static const uint8_t count_up[] = {0x40, 0x47, 0x07};
    printf("A reply that comes too late is not sent; what it acknowledged is kept\n");
    send_frame(host, count_up, sizeof count_up);
    pass(PAUSE_BITS);
    bool good = asked(host, "40 46 06", "40 46 00 00 03 05");
    good &= collisions == 0;
    good &= host_start(host, EIGHT_BLOCKS, flash, 9) == RESTARTED;
    good &= asked(host, "40 46 06", "40 46 00 00 03 05");
    return good;
}

static bool damage_is_told(struct host *host, struct flash *flash) {
    flash->lasting[QS_IMAGE_OFFSET - QS_IMAGE_LASTING] ^= 1;
    bool good = started(host, EIGHT_BLOCKS, flash, 9, DAMAGED, "A bit of the lasting bytes has flipped; the fields are whole");
    good &= asked(host, "40 46 06", "40 C6 00 00 00 86");
    good &= asked(host, "40 50 10", "40 50 06 16");
    good &= asked(host, "40 4C 00 0C", "40 4C 00 D8 D4");
    return good;
}

/* ---- address and label ---------------------------------------------------------------------------------------------------------------------------------- */

#define TYPE_REPLY " 52 E4 07 80 00"
#define VERSION_REPLY                                                                                                                                       \
    " 56 51 53 30 30 30 34 37 31 31 65 78 61 6D 70 6C 65 20 31 2E 30 00 00 00 00 00 00 00 00 00 30 31 2E 30 32 2E 32 36"

/* Several boards are to share a line: a drive reads what this one is, and gives it an address of its own. The reply comes from the new address already. */
static bool new_address(struct host *host, struct flash *flash) {
    bool good = started(host, SHEET, flash, 0, NEW_BOARD, "A drive reads the type label and the version, and gives the board the address 45h");
    good &= asked(host, "40 52 12", "40" TYPE_REPLY " 71");
    good &= asked(host, "40 56 16", "40" VERSION_REPLY " 47");
    good &= asked(host, "40 55 60 55 20", "40 50 0D 1D");
    good &= asked(host, "40 55 45 55 05", "45 55 10");
    good &= asked(host, "40 4E 0E", "");
    good &= asked(host, "45 4E 0B", "45 4E 70 00 7B");
    return good;
}

/* The plate has the old address still; the one that lasted is in force. */
static bool new_address_is_kept(struct host *host, struct flash *flash) {
    memset(host, 0xA5, sizeof *host);
    bool good = started(host, SHEET, flash, 0, RESTARTED, "The supply was off: the board is at its new address, with its label");
    good &= asked(host, "40 4E 0E", "");
    good &= asked(host, "45 4E 0B", "45 4E 70 00 7B");
    good &= asked(host, "FF 52 AD", "45" TYPE_REPLY " 74");
    good &= asked(host, "45 56 13", "45" VERSION_REPLY " 42");
    return good;
}

/* Lost lasting bytes: the plate's address is in force, with a warning. */
static bool lost_address_is_the_plates(struct host *host, struct flash *flash) {
    flash->lasting[QS_IMAGE_ADDRESS - QS_IMAGE_LASTING] ^= 1;
    bool good = started(host, SHEET, flash, 0, DAMAGED, "A bit of the kept address has flipped: the board is at its plate's address");
    good &= asked(host, "45 4E 0B", "");
    good &= asked(host, "44 4E 0A", "");
    good &= asked(host, "40 4E 0E", "40 CE 70 00 FE");
    return good;
}

/* ---- the bench's side ----------------------------------------------------------------------------------------------------------------------------------- */

/* A request written, sent and judged. The master knows the reply's end once two bytes are here. */
static bool bench_side(struct host *host, struct flash *flash) {
    uint8_t request[QS_REQUEST_BUFFER];
    const uint8_t field[] = {0};
    bool good = started(host, SHEET, flash, 0, NEW_BOARD, "The bench asks every board for field 0; the one that answers has none");
    uint64_t length = qs_request(QS_BROADCAST, QS_FIELD_STATUS, field, sizeof field, request, sizeof request);
    if (QS_IS_REFUSED(length))
        return false;
    uint64_t replied = exchange(host, request, length);
    uint64_t told = qs_reply_length(request, length, host->room, 2);
    uint32_t verdict = qs_judge(request, length, host->room, replied);
    uint64_t data = qs_data_part(request, length, host->room, replied);
    printf(" ");
    print_bytes(request, length);
    printf(" ->");
    print_bytes(host->room, replied);
    printf("   after two bytes: %" PRIu64 " to come in all; error %02Xh, data at place %" PRIu64 ":", told, QS_VERDICT_CODE(verdict), QS_DATA_PLACE(data));
    print_bytes(host->room + QS_DATA_PLACE(data), QS_DATA_LENGTH(data));
    printf("\n");
    return good && told == replied && QS_VERDICT_IS_ERROR(verdict) && QS_VERDICT_CODE(verdict) == QS_ERROR_NO_FIELD && !QS_VERDICT_WARNS(verdict);
}

int main(void) {
    static struct host host;
    static struct flash sheet, pallet, faults, kept, moved, bench;
    bool good = fields_of_the_sheet(&host, &sheet);
    good &= pallet_of_the_sheet(&host, &pallet);
    good &= faults_of_the_sheet(&host, &faults);
    good &= wrap_inside_a_frame(&host);
    good &= things_to_keep(&host, &kept);
    good &= kept_over_a_restart(&host, &kept);
    good &= late_reply_is_kept(&host, &kept);
    good &= damage_is_told(&host, &kept);
    good &= new_address(&host, &moved);
    good &= new_address_is_kept(&host, &moved);
    good &= lost_address_is_the_plates(&host, &moved);
    good &= bench_side(&host, &bench);
    good &= wake_ups * 4 < beats;
    printf("The host was woken %u times; polling on each bit time it would have been %u times\n", wake_ups, beats);
    printf("%s\n", good ? "example: every reply is the one that belongs there" : "example: a reply is not the one that belongs there");
    return good ? 0 : 1;
}
