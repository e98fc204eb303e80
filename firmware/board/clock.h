/* The tick of 1/38400 s, counted by a hardware timer, and an alarm. */
#ifndef CLOCK_H
#define CLOCK_H

#include <stdint.h>

void clock_start(void);

/* The tick now; it wraps around at exactly 2^32. From the main loop and from interrupts. */
uint32_t clock_ticks(void);

/* An interrupt so many ticks from now, or a little later; none after clock_no_alarm. */
void clock_alarm(uint32_t ticks);
void clock_no_alarm(void);

#endif
