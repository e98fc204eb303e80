/* board/clock.c on the host, over timers that the test moves: ticks are exact over any time and wrap around at 2^32, alarms do not come early. Prints what failed, ends in
 * 1 if any did. */
#define PROGRAM "test_clock.c"
#include "testing.h"

#include "chip.h"
#include "clock.h"

struct timer_registers timers[2];
static uint32_t enabled, off_depth;
static uint64_t beats; /* since the start */

void timer0_interrupt(void), timer1_interrupt(void);

void interrupt_on(unsigned number) {
    enabled |= 1u << number;
}

uint32_t interrupts_off(void) {
    return off_depth++;
}

void interrupts_as(uint32_t before) {
    check(off_depth == before + 1, "interrupts go on as they went off", off_depth);
    off_depth = before;
}

/* Time passes: timer 0 counts down through all 32 bits, and its interrupt comes each time it has gone round. */
static void pass(uint64_t more) {
    uint64_t rounds = ((beats + more) >> 32) - (beats >> 32);
    check(rounds <= 1, "no round is skipped", 0);
    beats += more;
    timers[0].value = ~(uint32_t)beats;
    if (rounds == 1)
        timer0_interrupt();
}

/* 24 ticks in 15625 beats of 25 MHz, without the product's upper bits lost: 01's tick is 1/38400 s. */
static uint32_t ticks_of_beats(uint64_t number) {
    return (uint32_t)(number / 15625 * 24 + number % 15625 * 24 / 15625);
}

static void look(unsigned long number) {
    check(clock_ticks() == ticks_of_beats(beats), "the tick", number);
    check(off_depth == 0, "interrupts are on again", number);
}

/* Looks at any distance, from none to nearly a round. */
static void test_ticks(void) {
    for (unsigned long i = 0; i < 1000000; i++) {
        uint64_t most = once_in(4) ? UINT32_MAX : once_in(2) ? 100000 : 1000;
        pass(dice() % most);
        look(i);
    }
    check(beats >> 32 > 100000, "many rounds", (unsigned long)(beats >> 32));
}

/* The count of ticks goes round at exactly 2^32, 31 hours. */
static void test_wrap(void) {
    uint32_t before = clock_ticks();
    for (unsigned long i = 0; i < 2000; i++) {
        pass(UINT32_MAX);
        uint32_t now = clock_ticks();
        check(now - before == ticks_of_beats(beats) - ticks_of_beats(beats - UINT32_MAX), "ticks between", i);
        before = now;
    }
}

/* So many ticks after any moment have begun when the alarm comes, and it is at most two beats late. */
static void test_alarms(void) {
    for (uint32_t ticks = 1; ticks <= QS_LONGEST_SLEEP; ticks++) {
        timers[1].interrupts = 0;
        clock_alarm(ticks);
        uint64_t set = timers[1].value;
        check(set * 24 >= (uint64_t)ticks * 15625 && set * 24 <= (uint64_t)ticks * 15625 + 48, "an alarm", ticks);
        check(timers[1].control == (TIMER_ON | TIMER_INTERRUPT) && timers[1].reload == timers[1].value, "the alarm is on", ticks);
        timer1_interrupt();
        check(timers[1].control == 0 && timers[1].interrupts == TIMER_ENDED, "it comes once", ticks);
    }
}

int main(void) {
    clock_start();
    check(enabled == (1u << TIMER0_NUMBER | 1u << TIMER1_NUMBER), "both interrupts are on", enabled);
    check(timers[0].value == UINT32_MAX && timers[0].reload == UINT32_MAX && timers[0].control == (TIMER_ON | TIMER_INTERRUPT), "the clock runs", 0);
    look(0);
    test_ticks();
    test_wrap();
    test_alarms();
    return ended();
}
