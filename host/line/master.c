/* The master's side of a line: see master.h. */
#define _XOPEN_SOURCE 700
#include "master.h"

#include "words.h"

#include <inttypes.h>
#include <stdio.h>
#include <string.h>

uint32_t asked_address;

static struct port port;
static uint64_t free_from;   /* the tick from which on the line may be used */
static uint64_t reset_until; /* that at which boards are back from a reset */

/* What the systems at both ends may need beside 000's times, to wake up and to write a file; 000's time after a reset; for how long a line may be noisy. */
enum { GRACE_MILLISECONDS = 50, AFTER_RESET_MILLISECONDS = 100, LONGEST_NOISE_MILLISECONDS = 2000 };

bool take_address(const char *value) {
    if (strcmp(value, "all") != 0)
        return number_in(value, "--address", 0, 31, &asked_address);
    asked_address = QS_BROADCAST;
    return true;
}

/* ---- times ---------------------------------------------------------------------------------------------------------------------------------------------- */

static uint64_t bits(uint64_t number) {
    return number * line.ticks;
}

/* For how long the line must be still before a request: the pause, that boards see the frames before as closed, and a character more, so that it is not on the
 * edge (000: at least the length of the timeout). A board may have heard the frame before late by its patience, and waits for that again. */
static uint64_t stillness(void) {
    return bits(line.pause + CHARACTER_BITS) + 2 * line.patience;
}

/* Until when the first character of the reply must be here, counted from the sending. The board may have heard the request late, and its reply may be heard so. */
static uint64_t reply_due(const struct exchange *exchange) {
    const struct command *command = command_of(exchange->request[1]);
    uint32_t milliseconds = (command == NULL ? 0 : command->due) + GRACE_MILLISECONDS;
    return bits((exchange->request_length + 1) * CHARACTER_BITS + line.pause) + ticks_of_milliseconds(milliseconds) + 2 * line.patience;
}

/* Until when the next one must be here, counted from the one before. */
static uint64_t next_due(void) {
    return bits(line.pause + CHARACTER_BITS) + ticks_of_milliseconds(GRACE_MILLISECONDS) + line.patience;
}

/* ---- sending and hearing -------------------------------------------------------------------------------------------------------------------------------- */

bool master_open(const char *name) {
    if (!port_open(&port, name))
        return false;
    free_from = ticks_now() + stillness();
    return true;
}

static void wait_until(uint64_t tick) {
    while (ticks_now() < tick)
        (void)wait_for(-1, -1, tick, NULL);
}

void master_close(void) {
    wait_until(reset_until);
    port_close(&port);
}

static void gone(struct exchange *exchange) {
    port_gone(&port);
    exchange->heard = HEARD_GONE;
}

/* Whether the reply is whole, by the bench; a reply that none begins so ends when the line is still. */
static bool is_whole(const struct exchange *exchange) {
    uint64_t length = qs_reply_length(exchange->request, exchange->request_length, exchange->reply, exchange->reply_length);
    return exchange->reply_length == REPLY_BUFFER || (length >= 3 && length <= QS_REPLY_ROOM && exchange->reply_length >= length);
}

/* The characters of a reply, as far as it goes: what stands behind its end is nobody's. */
static void take(struct exchange *exchange, const struct character *characters, int number) {
    for (int i = 0; i < number && !is_whole(exchange); i++) {
        exchange->reply[exchange->reply_length++] = characters[i].value;
        exchange->heard = characters[i].parity_fault || exchange->heard == HEARD_FAULT ? HEARD_FAULT : HEARD_REPLY;
    }
}

/* What is there is heard, however late this process was woken; it is over when the reply is whole, or when nothing is there and it is due. */
static void hear(struct exchange *exchange, uint64_t due) {
    struct character characters[MOST_AT_ONCE];
    while (!is_whole(exchange)) {
        bool is_due = ticks_now() >= due;
        bool is_there = wait_for(port.fd, -1, due, NULL).first;
        if (is_due && !is_there)
            return;
        int number = is_there ? port_receive(&port, characters) : 0;
        if (number < 0) {
            gone(exchange);
            return;
        }
        take(exchange, characters, number);
        if (number > 0)
            due = ticks_now() + next_due();
    }
}

/* Waits until nobody has spoken for as long as it takes; what somebody says meanwhile, as a board that answers too late, is lost. False, and told, if the port is
 * gone or the line never still. */
static bool line_is_still(void) {
    struct character lost[MOST_AT_ONCE];
    uint64_t until = ticks_now() + stillness() + ticks_of_milliseconds(LONGEST_NOISE_MILLISECONDS);
    while (ticks_now() < free_from) {
        if (!wait_for(port.fd, -1, free_from, NULL).first)
            continue;
        int number = port_receive(&port, lost);
        if (number < 0)
            return port_gone(&port);
        if (number > 0)
            free_from = ticks_now() + stillness();
        if (free_from > until)
            return complain("%s: somebody else speaks on the line all the time", port.name);
    }
    return true;
}

static void send_and_hear(struct exchange *exchange) {
    if (!line_is_still()) {
        exchange->heard = HEARD_GONE;
        return;
    }
    port_forget(&port);
    uint64_t due = ticks_now() + reply_due(exchange);
    if (port_send(&port, exchange->request, exchange->request_length))
        hear(exchange, due);
    else
        gone(exchange);
}

void master_exchange(struct exchange *exchange) {
    exchange->reply_length = 0;
    exchange->heard = HEARD_SILENCE;
    send_and_hear(exchange);
    if (exchange->heard != HEARD_REPLY)
        exchange->reply_length = 0;
    free_from = ticks_now() + stillness();
    if (exchange->request[1] == QS_RESET)
        free_from = reset_until = ticks_now() + stillness() + ticks_of_milliseconds(AFTER_RESET_MILLISECONDS);
}

/* ---- asking --------------------------------------------------------------------------------------------------------------------------------------------- */

uint32_t master_ask(struct exchange *exchange, uint8_t command, const uint8_t *data, uint64_t data_length) {
    static const uint8_t nothing[1]; /* no pointer is null, also where its length is 0 */
    uint64_t length = qs_request(asked_address, command, data == NULL ? nothing : data, data_length, exchange->request, sizeof exchange->request);
    if (QS_IS_REFUSED(length))
        return QS_B0;
    exchange->request_length = length;
    master_exchange(exchange);
    return qs_judge(exchange->request, exchange->request_length, exchange->reply, exchange->reply_length);
}

const uint8_t *master_data(const struct exchange *exchange, uint64_t *length) {
    uint64_t part = qs_data_part(exchange->request, exchange->request_length, exchange->reply, exchange->reply_length);
    *length = QS_DATA_LENGTH(part);
    return exchange->reply + QS_DATA_PLACE(part);
}

enum status master_status(const struct exchange *exchange, uint32_t verdict) {
    if (exchange->heard == HEARD_GONE)
        return ENDED_PORT;
    if (exchange->heard == HEARD_SILENCE)
        return ENDED_SILENCE;
    if (QS_VERDICT_IS_ERROR(verdict))
        return ENDED_ERROR_CODE;
    return verdict >= QS_VERDICT_REFUSED ? ENDED_REFUSED : ENDED_DONE;
}

void print_failure(const struct exchange *exchange, uint32_t verdict) {
    if (exchange->heard == HEARD_SILENCE)
        printf("silence: no reply came");
    else if (exchange->heard == HEARD_FAULT)
        printf("refused: a character of the reply had a parity fault");
    else if (QS_VERDICT_IS_ERROR(verdict)) {
        printf("error ");
        print_error(QS_VERDICT_CODE(verdict), exchange->request[1]);
    } else
        printf("refused B%" PRIu32 ": %s", verdict - QS_VERDICT_REFUSED, refusal_words(verdict - QS_VERDICT_REFUSED));
}
