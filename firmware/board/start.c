/* Vectors and start-up of a Cortex-M. */
#include "chip.h"

#include <string.h>

extern uint8_t ram_data[], ram_data_end[], flash_data[], ram_zero[], ram_zero_end[], stack_top[];
int main(void);
void uart0_received_interrupt(void), uart0_sent_interrupt(void), timer0_interrupt(void), timer1_interrupt(void);

void start(void) {
    memcpy(ram_data, flash_data, (size_t)(ram_data_end - ram_data));
    memset(ram_zero, 0, (size_t)(ram_zero_end - ram_zero));
    (void)main();
}

/* A fault starts the board anew: what must last is in the flash, and what was not acknowledged the master asks again. The stack lies at the lower end of the RAM, so
 * that one that grows too long ends here and not in the data. */
static void start_anew(void) {
    SYSTEM_RESET = SYSTEM_RESET_KEY;
    for (;;)
        ;
}

typedef void (*vector)(void);

__attribute__((section(".vectors"), used)) static const vector VECTORS[16 + INTERRUPTS] = {
    (vector)(void *)stack_top,
    start,
    [2 ... 15] = start_anew,
    [16 + UART0_RECEIVED_NUMBER] = uart0_received_interrupt,
    [16 + UART0_SENT_NUMBER] = uart0_sent_interrupt,
    [16 + TIMER0_NUMBER] = timer0_interrupt,
    [16 + TIMER1_NUMBER] = timer1_interrupt,
};
