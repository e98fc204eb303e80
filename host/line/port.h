/* A serial port, or the end of a pseudo terminal, as the line that a board or a master is on; and the clock in ticks. */
#ifndef PORT_H
#define PORT_H

#include "tool.h"

#include <signal.h>
#include <stdbool.h>
#include <stdint.h>
#include <time.h>

/* ---- the clock ------------------------------------------------------------------------------------------------------------------------------------------ */

enum { TICKS_A_SECOND = 38400, CHARACTER_BITS = 11 };

/* Ticks of 1/38400 s by the monotonic clock; 64 bits, of which the board takes the low 32, so that its count wraps around at exactly 2^32. */
uint64_t ticks_now(void);

/* The tick that a time falls into, and the first nanosecond of a tick. */
uint64_t tick_of(struct timespec time);
struct timespec start_of(uint64_t tick);

/* So many milliseconds in ticks, rounded up. */
uint64_t ticks_of_milliseconds(uint32_t milliseconds);

#define NEVER UINT64_MAX

/* Waits until a descriptor can be read, the clock shows `due`, or a signal comes that `open_signals` lets through; a descriptor of -1 is none. NULL for the
 * signals leaves them as they are. */
struct woken {
    bool first, second; /* the descriptors that can be read */
};
struct woken wait_for(int first, int second, uint64_t due, const sigset_t *open_signals);

/* ---- the port ------------------------------------------------------------------------------------------------------------------------------------------- */

/* Whether the port hears what it sends itself. By time: what ends while the own frame is on the line, or so soon behind it that it can be nobody else's, is its
 * echo; that holds where a port delivers in time. A pseudo terminal has none. */
enum echo { ECHO_BY_TIME, ECHO_ON, ECHO_OFF };

/* How the line is worked. */
struct line {
    uint32_t ticks;    /* a bit; the rate is 38400 / ticks baud */
    uint32_t pause;    /* bit times that close a frame */
    uint64_t patience; /* ticks by which the port may deliver late; PATIENCE_OF_PORT until an option or the port says it */
    enum echo echo;
    bool rs485; /* the kernel switches the driver */
};

#define PATIENCE_OF_PORT UINT64_MAX

extern struct line line; /* 9600 baud, a pause of 55, until the options below say otherwise */

/* The options of a line, for a program's own table. */
#define LINE_OPTIONS                                                                                                                                        \
    {.name = "--rate", .take = take_rate}, {.name = "--pause", .take = take_pause}, {.name = "--patience", .take = take_patience},                          \
        {.name = "--echo", .take = take_echo}, {.name = "--rs485", .flag = &line.rs485}
bool take_rate(const char *value);
bool take_pause(const char *value);
bool take_patience(const char *value);
bool take_echo(const char *value);

struct character {
    uint8_t value;
    bool parity_fault;
};

/* The kernel's marks of parity faults, taken apart: FFh 00h X is X with a fault, FFh FFh is FFh (POSIX, PARMRK). A mark may be cut by the end of a read. */
struct marks {
    unsigned seen; /* of a mark: 0 to 2 bytes */
};

/* Takes one byte; true if a character is whole with it. */
bool unmarked(struct marks *marks, uint8_t byte, struct character *character);

enum { LONGEST_FRAME = 135, MOST_AT_ONCE = 512 };

struct port {
    const char *name;
    int fd;
    int other_end; /* of a pseudo terminal that this program made, kept open so that masters may come and go; else -1 */
    bool has_marks;
    struct marks marks;
    enum echo echo;
    uint8_t sent[LONGEST_FRAME]; /* the own frame, as far as its echo has not come back */
    unsigned sent_length, echoed;
    uint64_t echo_until;
};

/* Each complains and returns false if the port cannot be used. */
bool port_open(struct port *port, const char *name);
bool port_make_pty(struct port *port, char *name, uint64_t name_room);

/* What came since the last call, the own echo left out. Returns how many characters, at most MOST_AT_ONCE; -1 if the port is gone. */
int port_receive(struct port *port, struct character *characters);

/* Sends a frame. False if the port is gone. */
bool port_send(struct port *port, const uint8_t *frame, uint64_t length);

/* Throws away what came so far. */
void port_forget(struct port *port);

/* Complains that it is gone, with the system's reason. Returns false. */
bool port_gone(const struct port *port);

void port_close(struct port *port);

#endif
