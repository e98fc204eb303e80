/* The master's side of a line: a request is sent, its reply awaited; then judged and told by the proved bench. For bench and program. */
#ifndef MASTER_H
#define MASTER_H

#include "port.h"
#include "quicksetter.h"

/* A reply that fits has at most QS_REPLY_ROOM bytes; of a longer one so much is taken that it can be refused. */
enum { REPLY_BUFFER = 256 };

enum heard {
    HEARD_REPLY,   /* some bytes came; whether they fit is the bench's to judge */
    HEARD_SILENCE, /* none came in the time that 000 gives the command */
    HEARD_FAULT,   /* a character of the reply had a parity fault */
    HEARD_GONE,    /* the port is gone, or the line never still, and that was told */
};

struct exchange {
    uint8_t request[QS_REQUEST_BUFFER];
    uint64_t request_length;
    uint8_t reply[REPLY_BUFFER];
    uint64_t reply_length; /* 0 where no reply was heard */
    enum heard heard;
};

/* The address number of the board that is asked, 0 to 31 or QS_BROADCAST, and the options of a master, for a program's own table. */
extern uint32_t asked_address;
#define MASTER_OPTIONS LINE_OPTIONS, {.name = "--address", .take = take_address}
bool take_address(const char *value);

/* Opens the line. Complains and returns false if it cannot be used. */
bool master_open(const char *name);

/* Closes it; after a reset when boards are back, so that who comes next need not know of it. */
void master_close(void);

/* Sends the exchange's request, when the line has been still for the pause, and waits for the reply. */
void master_exchange(struct exchange *exchange);

/* Writes the request, exchanges it and judges the reply. Returns the verdict of qs_judge; QS_B0 where the bench does not write such a request, which is then not
 * sent, and QS_B1 for silence, a parity fault and a port that is gone, as exchange->heard says. */
uint32_t master_ask(struct exchange *exchange, uint8_t command, const uint8_t *data, uint64_t data_length);

/* The data of a reply that was judged good, or the code of an error reply. */
const uint8_t *master_data(const struct exchange *exchange, uint64_t *length);

/* How a program ends after such a verdict. */
enum status master_status(const struct exchange *exchange, uint32_t verdict);

/* Why there is no good reply, in one line: the error code, the refusal, silence or a parity fault. */
void print_failure(const struct exchange *exchange, uint32_t verdict);

#endif
