/* The line: characters in by interrupt, each with its tick, and replies out. */
#ifndef UART_H
#define UART_H

#include <stdbool.h>
#include <stdint.h>

struct character {
    uint32_t tick; /* of its end */
    uint8_t value, parity;
};

void uart_start(uint32_t ticks_a_bit);

/* Whether a character waits that nobody took. */
bool uart_waits(void);

/* The oldest one that waits. Only where one does. */
struct character uart_take(void);

/* Sends a reply and sleeps until its last character has ended. What the line brings meanwhile is the own echo, and is thrown away. */
void uart_send(const uint8_t *bytes, uint32_t length);

#endif
