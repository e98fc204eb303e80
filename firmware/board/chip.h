/* The chip of the emulated board, Arm's MPS2 with a Cortex-M3 (AN385): its registers, and the core's own. On another chip this file, uart.c, clock.c and flash.c change. */
#ifndef CHIP_H
#define CHIP_H

#include <stdint.h>

enum { CORE_HZ = 25000000 };

struct uart_registers {
    volatile uint32_t data, state, control, interrupts, divider;
};
#define UART0 ((struct uart_registers *)0x40004000)
enum { UART_RX_FULL = 2 };                                                                       /* state */
enum { UART_TX_ON = 1, UART_RX_ON = 2, UART_TX_INTERRUPT = 4, UART_RX_INTERRUPT = 8 };           /* control */
enum { UART_SENT = 1, UART_RECEIVED = 2 };                                                       /* interrupts; a one written takes one back */

/* They count down from value to 0, and then from reload. */
struct timer_registers {
    volatile uint32_t control, value, reload, interrupts;
};
#define TIMER0 ((struct timer_registers *)0x40000000)
#define TIMER1 ((struct timer_registers *)0x40001000)
enum { TIMER_ON = 1, TIMER_INTERRUPT = 8, TIMER_ENDED = 1 };

/* Numbers of the interrupts; the vector of number n is the (16 + n)th. */
enum { UART0_RECEIVED_NUMBER = 0, UART0_SENT_NUMBER = 1, TIMER0_NUMBER = 8, TIMER1_NUMBER = 9, INTERRUPTS = 10 };

#define NVIC_ENABLE (*(volatile uint32_t *)0xE000E100)
#define SYSTEM_RESET (*(volatile uint32_t *)0xE000ED0C)
enum { SYSTEM_RESET_KEY = 0x05FA0004 };

static inline void interrupt_on(unsigned number) {
    NVIC_ENABLE = 1u << number;
}

/* Interrupts off, with what is to be given back by interrupts_as. They nest. */
static inline uint32_t interrupts_off(void) {
    uint32_t before;
    __asm__ volatile("mrs %0, primask\n\tcpsid i" : "=r"(before) : : "memory");
    return before;
}

/* What waited is served here, also if they go off again at once. */
static inline void interrupts_as(uint32_t before) {
    __asm__ volatile("msr primask, %0\n\tisb" : : "r"(before) : "memory");
}

/* Sleeps until an interrupt waits, also one that is held off: it is served when they are on again. */
static inline void sleep_until_interrupt(void) {
    __asm__ volatile("dsb\n\twfi" : : : "memory");
}

#endif
