/* The tick: see clock.h. Timer 0 runs through all 32 bits of the core's clock and never stops; timer 1 is the alarm. */
#include "clock.h"

#include "chip.h"

/* 24 ticks are 15625 beats of 25 MHz, so the conversion is exact. On another clock both are CORE_HZ and 38400 by their greatest common divisor. */
enum { TICKS = 24, BEATS = 15625, TICKS_A_SECOND = 38400 };
_Static_assert((uint64_t)BEATS * TICKS_A_SECOND == (uint64_t)TICKS * CORE_HZ, "ticks and beats are of one second");

/* The tick at the last look; rest is of the next one, in 1/24 beats. */
static struct {
    uint32_t beats, ticks, rest;
} last;

/* Beats since the last look become ticks, and what is no whole tick yet is kept: nothing is lost, and no number needs 64 bits. */
static void look(void) {
    uint32_t beats = ~TIMER0->value;
    uint32_t since = beats - last.beats;
    uint32_t part = since % BEATS * TICKS + last.rest;
    last.beats = beats;
    last.ticks += since / BEATS * TICKS + part / BEATS;
    last.rest = part % BEATS;
}

uint32_t clock_ticks(void) {
    uint32_t before = interrupts_off();
    look();
    uint32_t ticks = last.ticks;
    interrupts_as(before);
    return ticks;
}

/* Every 172 s the timer has gone round: a look in each round, and none is missed however long the board sleeps. */
void timer0_interrupt(void) {
    TIMER0->interrupts = TIMER_ENDED;
    (void)clock_ticks();
}

void timer1_interrupt(void) {
    clock_no_alarm();
}

void clock_start(void) {
    TIMER0->reload = UINT32_MAX;
    TIMER0->value = UINT32_MAX;
    TIMER0->control = TIMER_ON | TIMER_INTERRUPT;
    interrupt_on(TIMER0_NUMBER);
    interrupt_on(TIMER1_NUMBER);
}

/* Rounded up: the tick has begun when it comes. */
void clock_alarm(uint32_t ticks) {
    uint32_t beats = ticks / TICKS * BEATS + (ticks % TICKS * BEATS + TICKS - 1) / TICKS + 1;
    clock_no_alarm();
    TIMER1->reload = beats;
    TIMER1->value = beats;
    TIMER1->control = TIMER_ON | TIMER_INTERRUPT;
}

void clock_no_alarm(void) {
    TIMER1->control = 0;
    TIMER1->interrupts = TIMER_ENDED;
}
