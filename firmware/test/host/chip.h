/* The chip's timers and interrupts as board/clock.c sees them, for test_clock.c on the host: in the place of board/chip.h. */
#ifndef CHIP_H
#define CHIP_H

#include <stdint.h>

enum { CORE_HZ = 25000000 };

struct timer_registers {
    volatile uint32_t control, value, reload, interrupts;
};
extern struct timer_registers timers[2];
#define TIMER0 (&timers[0])
#define TIMER1 (&timers[1])
enum { TIMER_ON = 1, TIMER_INTERRUPT = 8, TIMER_ENDED = 1 };
enum { TIMER0_NUMBER = 8, TIMER1_NUMBER = 9 };

void interrupt_on(unsigned number);
uint32_t interrupts_off(void);
void interrupts_as(uint32_t before);

#endif
