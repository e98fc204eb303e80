/* The clock, the kernel's marks of parity faults, and the own echo, which no pty has: port.c by itself. */
#define _XOPEN_SOURCE 700
#define PROGRAM "test_port.c"
#include "../testing.h"
#include "port.h"

#include <fcntl.h>
#include <sys/socket.h>
#include <unistd.h>

const char *const tool_name = "test_port";

/* ---- the clock ------------------------------------------------------------------------------------------------------------------------------------------ */

static struct timespec nanosecond_before(struct timespec time) {
    if (time.tv_nsec > 0)
        return (struct timespec){time.tv_sec, time.tv_nsec - 1};
    return (struct timespec){time.tv_sec - 1, 999999999};
}

/* A tick begins where start_of says, and not a nanosecond earlier. */
static void check_tick(uint64_t tick) {
    struct timespec start = start_of(tick);
    check(start.tv_nsec >= 0 && start.tv_nsec < 1000000000, "nanoseconds of a second", tick);
    check(tick_of(start) == tick, "a tick's first nanosecond is in it", tick);
    check(tick == 0 || tick_of(nanosecond_before(start)) == tick - 1, "the nanosecond before is in the tick before", tick);
}

static void check_clock(void) {
    for (uint64_t tick = 0; tick < 2 * TICKS_A_SECOND; tick++)
        check_tick(tick);
    for (unsigned i = 0; i < 100000; i++)
        check_tick(dice() % ((uint64_t)1 << 45)); /* 29 years */
    check(ticks_of_milliseconds(0) == 0 && ticks_of_milliseconds(5) == 192 && ticks_of_milliseconds(1) == 39, "milliseconds in ticks, rounded up", 0);
    uint64_t before = ticks_now(), due = before + 400;
    while (ticks_now() < due)
        (void)wait_for(-1, -1, due, NULL);
    check(ticks_now() - before < 40000, "a wait ends", 0);
}

/* ---- marks ---------------------------------------------------------------------------------------------------------------------------------------------- */

/* Bytes as the kernel gives them, and the characters that they are. */
static void check_marks(const uint8_t *bytes, unsigned length, const struct character *expected, unsigned number, unsigned row) {
    struct marks marks = {0};
    struct character character;
    unsigned found = 0;
    bool good = true;
    for (unsigned i = 0; i < length; i++)
        if (unmarked(&marks, bytes[i], &character)) {
            good = good && found < number && character.value == expected[found].value && character.parity_fault == expected[found].parity_fault;
            found++;
        }
    check(good && found == number && marks.seen == 0, "marks are taken apart", row);
}

static void check_all_marks(void) {
    for (unsigned value = 0; value < 256; value++) {
        const uint8_t plain[] = {(uint8_t)value, 0xFF}, faulty[] = {0x12, 0xFF, 0x00, (uint8_t)value, 0x34};
        const struct character one[] = {{(uint8_t)value, false}}, three[] = {{0x12, false}, {(uint8_t)value, true}, {0x34, false}};
        check_marks(plain, value == 0xFF ? 2 : 1, one, 1, value);
        check_marks(faulty, sizeof faulty, three, 3, value);
    }
}

/* ---- the echo ------------------------------------------------------------------------------------------------------------------------------------------- */

static const uint8_t FRAME[] = {0x40, 0x4E, 0x0E};

/* What a port hears that sends FRAME and then is given these bytes, so many ticks later. */
static int heard(enum echo echo, const uint8_t *bytes, unsigned length, uint64_t later, struct character *characters) {
    int ends[2];
    if (socketpair(AF_UNIX, SOCK_STREAM, 0, ends) != 0 || fcntl(ends[0], F_SETFL, O_NONBLOCK) != 0)
        return -1;
    struct port port = {.name = "a pair", .fd = ends[0], .other_end = ends[1], .echo = echo};
    bool sent = port_send(&port, FRAME, sizeof FRAME);
    uint64_t due = ticks_now() + later;
    while (ticks_now() < due)
        (void)wait_for(-1, -1, due, NULL);
    sent = sent && write(ends[1], bytes, length) == (ssize_t)length;
    int number = sent ? port_receive(&port, characters) : -1;
    port_close(&port);
    return number;
}

/* At 600 baud the frame is on the line for 2112 ticks, and the first character of somebody else ends 4224 ticks later. */
static void check_echo(void) {
    static const uint8_t twice[] = {0x40, 0x4E, 0x0E, 0x40, 0x4E, 0x0E}, other[] = {0x40, 0x4E, 0x70, 0x00, 0x7E};
    struct character characters[MOST_AT_ONCE];
    line.ticks = 64;
    check(heard(ECHO_BY_TIME, twice, 3, 0, characters) == 0, "an echo in time is dropped", 0);
    check(heard(ECHO_BY_TIME, twice, 6, 0, characters) == 3, "only once", 0);
    check(heard(ECHO_BY_TIME, other, 5, 0, characters) == 3 && characters[0].value == 0x70, "what differs from it is heard", 0);
    check(heard(ECHO_BY_TIME, twice, 3, 2112 + 2816, characters) == 0, "an echo that a UART collected is dropped", 0);
    check(heard(ECHO_BY_TIME, twice, 3, 2112 + 4224 + 1500, characters) == 3, "the same later is no echo", 0);
    check(heard(ECHO_ON, twice, 3, 2112 + 4224 + 1500, characters) == 0, "but where one is awaited", 0);
    check(heard(ECHO_OFF, twice, 6, 0, characters) == 6, "and none is dropped where there is none", 0);
}

int main(void) {
    check_clock();
    check_all_marks();
    check_echo();
    return ended();
}
