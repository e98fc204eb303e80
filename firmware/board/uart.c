/* The line: see uart.h. */
#include "uart.h"

#include "chip.h"
#include "clock.h"

/* One writer, the receive interrupt, and one reader, the main loop: each moves only its own end. It holds the longest request, so that none is lost while the
 * main loop writes to the flash. */
enum { PLACES = 256 };

static volatile struct character places[PLACES];
static volatile uint32_t written, taken;

/* The reply that is being sent, and how many of its characters the transmitter has taken. */
static const uint8_t *volatile reply;
static volatile uint32_t reply_length, sent;
static volatile bool sending;

/* This UART tells when it can take a character, not when the last one has ended: from then on that one and half of another. One that tells the end is asked. */
enum { CHARACTER_BITS = 11, LAST_BITS = CHARACTER_BITS + CHARACTER_BITS / 2, TICKS_A_SECOND = 38400 };
static uint32_t last_ticks;

void uart_start(uint32_t ticks_a_bit) {
    last_ticks = LAST_BITS * ticks_a_bit;
    UART0->divider = CORE_HZ / (TICKS_A_SECOND / ticks_a_bit);
    UART0->control = UART_TX_ON | UART_RX_ON | UART_TX_INTERRUPT | UART_RX_INTERRUPT;
    interrupt_on(UART0_RECEIVED_NUMBER);
    interrupt_on(UART0_SENT_NUMBER);
}

/* A character has ended. This UART has no parity; one that has is set to even parity, and tells of a fault beside the character. */
void uart0_received_interrupt(void) {
    uint32_t tick = clock_ticks();
    UART0->interrupts = UART_RECEIVED;
    if ((UART0->state & UART_RX_FULL) == 0)
        return;
    uint8_t value = (uint8_t)UART0->data;
    if (sending || written - taken == PLACES)
        return;
    places[written % PLACES] = (struct character){.tick = tick, .value = value, .parity = 0};
    written = written + 1;
}

bool uart_waits(void) {
    return written != taken;
}

struct character uart_take(void) {
    struct character character = places[taken % PLACES];
    taken = taken + 1;
    return character;
}

/* The transmitter has room for the next one. */
void uart0_sent_interrupt(void) {
    UART0->interrupts = UART_SENT;
    if (sent == reply_length)
        return;
    sent = sent + 1;
    if (sent < reply_length)
        UART0->data = reply[sent];
}

/* Interrupts are off when it is called, and when it returns. */
static void sleep_once(void) {
    sleep_until_interrupt();
    interrupts_as(0);
    (void)interrupts_off();
}

static void wait_for_last_character(void) {
    uint32_t begun = clock_ticks();
    for (uint32_t waited = 0; waited < last_ticks; waited = clock_ticks() - begun) {
        clock_alarm(last_ticks - waited);
        sleep_once();
    }
}

/* On a line with a driver to be switched it is on from here to the end. Only the main loop calls it, with interrupts on. */
void uart_send(const uint8_t *bytes, uint32_t length) {
    (void)interrupts_off();
    sending = true;
    reply = bytes;
    sent = 0;
    reply_length = length;
    UART0->data = bytes[0];
    while (sent < reply_length)
        sleep_once();
    wait_for_last_character();
    sending = false;
    interrupts_as(0);
}
