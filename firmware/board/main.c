/* The firmware of a bare board, to be copied: characters and times go to the library, what changed to the flash, and only then the reply to the line. */
#include "chip.h"
#include "clock.h"
#include "keep.h"
#include "plate.h"
#include "uart.h"

#include <string.h>

/* 000's internal checksum error. A drive must not trust the position of a board whose offset is lost; a host that can tell no other way locks it too, by
 * QS_FAULT_LOCKS_A. */
enum { INTERNAL_CHECKSUM_ERROR = 0x06 };

static uint8_t image[QS_IMAGE_LENGTH], memory[QS_MEMORY_LENGTH(TOTAL)], room[QS_REPLY_ROOM];

/* What the flash has of them, or is to have. */
static uint8_t lasting[QS_LASTING_LENGTH];
static const struct kept kept = {.total = TOTAL, .bits = BITS, .lasting = lasting, .memory = memory};

/* The tick of the last character or poll, and for how many ticks from there the board may sleep, or QS_NO_FRAME_OPEN. */
static uint32_t called, may_sleep;

/* ---- start ---------------------------------------------------------------------------------------------------------------------------------------------- */

/* What the sine/cosine channel measures. The emulated board has none. */
static uint32_t measured_position(void) {
    return 0x123456;
}

static bool made_fresh(void) {
    return qs_fresh(TOTAL, BITS, PLATE_ADDRESS, TICKS_A_BIT, PAUSE, LABEL, sizeof LABEL, image, sizeof image) == 0;
}

static bool made_of_lasting(void) {
    return qs_restart(TOTAL, BITS, PLATE_ADDRESS, TICKS_A_BIT, PAUSE, LABEL, sizeof LABEL, lasting, sizeof lasting, image, sizeof image) == 0;
}

/* The board as the flash has it. Damage is told by a fault code: what is there then may be older than what was acknowledged, or the board is fresh. */
static void start_board(void) {
    memset(memory, 0, sizeof memory);
    may_sleep = QS_NO_FRAME_OPEN;
    enum found found = keep_read(&kept);
    bool restarted = (found == FOUND_WHOLE || found == FOUND_OLDER) && made_of_lasting();
    if (!restarted && !made_fresh())
        return; /* an impossible plate: every call refuses the image, and the board keeps silent */
    if (found != FOUND_NONE && !(found == FOUND_WHOLE && restarted))
        (void)qs_fault(image, sizeof image, INTERNAL_CHECKSUM_ERROR);
    (void)qs_measured(image, sizeof image, measured_position());
}

/* ---- one turn of the main loop -------------------------------------------------------------------------------------------------------------------------- */

/* What a character or a poll at a tick told: the reply's length, 0 for none, and how long the board may sleep. The lengths are its own and the image is what
 * the last call left, so no refusal can come; if one does, the board keeps silent. */
static uint32_t told(uint32_t tick, uint64_t result) {
    called = tick;
    may_sleep = QS_IS_REFUSED(result) ? QS_NO_FRAME_OPEN : QS_SLEEP(result);
    return QS_IS_REFUSED(result) ? 0 : (uint32_t)QS_REPLY(result);
}

static uint32_t take_character(void) {
    struct character c = uart_take();
    return told(c.tick, qs_character(image, sizeof image, c.tick, c.value, c.parity, memory, sizeof memory, room, sizeof room));
}

static uint32_t poll_at(uint32_t tick) {
    (void)qs_measured(image, sizeof image, measured_position());
    return told(tick, qs_poll(image, sizeof image, tick, memory, sizeof memory, room, sizeof room));
}

/* Whether all that the reply acknowledges is in the flash. A flash that does not take it is told by a fault code, and the board is as the flash has it. */
static bool is_kept(void) {
    if (!QS_MAY_CHANGE(room[1]))
        return true;
    memcpy(lasting, image + QS_IMAGE_LASTING, sizeof lasting);
    if (keep_write(&kept))
        return true;
    start_board();
    (void)qs_fault(image, sizeof image, INTERNAL_CHECKSUM_ERROR);
    return false;
}

/* The clock is read before the queue: a character that ends in between is then never older than the poll. Where the master sends again already, the reply is
 * let go; what it acknowledged stays. */
static void turn(void) {
    uint32_t tick = clock_ticks();
    bool line_is_busy = uart_waits();
    uint32_t length = line_is_busy ? take_character() : poll_at(tick);
    if (length != 0 && is_kept() && !line_is_busy && !uart_waits())
        uart_send(room, length);
}

/* The look at the queue and the sleep are one step that no interrupt divides: a character that ended in between would else wait for the alarm, or for ever. */
static void sleep_until_due(void) {
    uint32_t before = interrupts_off();
    uint32_t since = clock_ticks() - called;
    bool frame_open = may_sleep != QS_NO_FRAME_OPEN;
    if (!uart_waits() && (!frame_open || since < may_sleep)) {
        if (frame_open)
            clock_alarm(may_sleep - since);
        sleep_until_interrupt();
    }
    interrupts_as(before);
}

int main(void) {
    clock_start();
    start_board();
    uart_start(TICKS_A_BIT);
    for (;;) {
        sleep_until_due();
        turn();
    }
}
