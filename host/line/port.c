/* The line of encoder, bench and program: see port.h. POSIX, but for the RS-485 direction, which is Linux's. */
#define _XOPEN_SOURCE 700
#include "port.h"

#include <errno.h>
#include <fcntl.h>
#include <stdio.h>
#include <stdlib.h>
#include <string.h>
#include <sys/select.h>
#include <termios.h>
#include <unistd.h>

#ifdef __linux__
#include <linux/serial.h>
#include <sys/ioctl.h>
#endif

/* ---- the clock ------------------------------------------------------------------------------------------------------------------------------------------ */

enum { NANOSECONDS = 1000000000 };

/* 38400 ticks are 10^9 nanoseconds, so 3 are 78125: a second has a whole number of ticks, and nothing is lost over the years. */
uint64_t tick_of(struct timespec time) {
    return (uint64_t)time.tv_sec * TICKS_A_SECOND + (uint64_t)time.tv_nsec * 3 / 78125;
}

struct timespec start_of(uint64_t tick) {
    uint64_t rest = tick % TICKS_A_SECOND;
    return (struct timespec){(time_t)(tick / TICKS_A_SECOND), (long)((rest * 78125 + 2) / 3)};
}

static struct timespec time_now(void) {
    struct timespec now;
    (void)clock_gettime(CLOCK_MONOTONIC, &now);
    return now;
}

uint64_t ticks_now(void) {
    return tick_of(time_now());
}

uint64_t ticks_of_milliseconds(uint32_t milliseconds) {
    return ((uint64_t)milliseconds * TICKS_A_SECOND + 999) / 1000;
}

/* The time until the clock first shows this tick; none if it does already. */
static struct timespec time_until(uint64_t tick) {
    struct timespec now = time_now(), start = start_of(tick);
    int64_t seconds = (int64_t)start.tv_sec - now.tv_sec;
    int64_t nanoseconds = (int64_t)start.tv_nsec - now.tv_nsec;
    if (nanoseconds < 0) {
        nanoseconds += NANOSECONDS;
        seconds--;
    }
    if (seconds < 0)
        return (struct timespec){0, 0};
    return (struct timespec){(time_t)seconds, (long)nanoseconds};
}

struct woken wait_for(int first, int second, uint64_t due, const sigset_t *open_signals) {
    fd_set readable;
    FD_ZERO(&readable);
    if (first >= 0)
        FD_SET(first, &readable);
    if (second >= 0)
        FD_SET(second, &readable);
    struct timespec wait = due == NEVER ? (struct timespec){0, 0} : time_until(due);
    int highest = first > second ? first : second;
    int ready = pselect(highest + 1, &readable, NULL, NULL, due == NEVER ? NULL : &wait, open_signals);
    if (ready <= 0)
        return (struct woken){false, false};
    return (struct woken){.first = first >= 0 && FD_ISSET(first, &readable), .second = second >= 0 && FD_ISSET(second, &readable)};
}

/* ---- options -------------------------------------------------------------------------------------------------------------------------------------------- */

struct line line = {.ticks = 4, .pause = 55, .patience = PATIENCE_OF_PORT, .echo = ECHO_BY_TIME, .rs485 = false};

static const struct {
    const char *name;
    uint32_t ticks;
    speed_t speed;
} RATES[] = {{"600", 64, B600}, {"1200", 32, B1200}, {"2400", 16, B2400}, {"4800", 8, B4800}, {"9600", 4, B9600}, {"19200", 2, B19200}, {"38400", 1, B38400}};

bool take_rate(const char *value) {
    for (unsigned i = 0; i < PLACES(RATES); i++)
        if (strcmp(RATES[i].name, value) == 0) {
            line.ticks = RATES[i].ticks;
            return true;
        }
    return complain("--rate is 600, 1200, 2400, 4800, 9600, 19200 or 38400, not '%s'", value);
}

bool take_pause(const char *value) {
    if (strcmp(value, "22") != 0 && strcmp(value, "55") != 0)
        return complain("--pause is 22 or 55, not '%s'", value);
    line.pause = value[0] == '2' ? 22 : 55;
    return true;
}

bool take_patience(const char *value) {
    enum { MOST_PATIENCE = 10000 };
    uint32_t milliseconds;
    if (!number_in(value, "--patience", 0, MOST_PATIENCE, &milliseconds))
        return false;
    line.patience = ticks_of_milliseconds(milliseconds);
    return true;
}

bool take_echo(const char *value) {
    if (strcmp(value, "on") != 0 && strcmp(value, "off") != 0)
        return complain("--echo is on or off, not '%s'", value);
    line.echo = strcmp(value, "on") == 0 ? ECHO_ON : ECHO_OFF;
    return true;
}

/* ---- opening -------------------------------------------------------------------------------------------------------------------------------------------- */

static speed_t speed_of_line(void) {
    for (unsigned i = 0; i < PLACES(RATES); i++)
        if (RATES[i].ticks == line.ticks)
            return RATES[i].speed;
    return B9600;
}

/* A pseudo terminal has no line: neither parity, which cannot even be set, nor an echo. */
static bool is_pseudo(int fd) {
    static const char folder[] = "/dev/pts/";
    const char *name = ttyname(fd);
    return name != NULL && strncmp(name, folder, sizeof folder - 1) == 0;
}

/* 8 data bits, even parity, one stop bit (000, "UART"), every byte as it is, faults marked where they are to be. */
static bool set_raw(int fd, tcflag_t marks) {
    struct termios wanted, taken;
    if (tcgetattr(fd, &wanted) != 0)
        return false;
    wanted.c_iflag = marks;
    wanted.c_oflag = 0;
    wanted.c_lflag = 0;
    wanted.c_cflag = CS8 | CREAD | CLOCAL | (is_pseudo(fd) ? 0 : PARENB);
    wanted.c_cc[VMIN] = 1;
    wanted.c_cc[VTIME] = 0;
    if (cfsetispeed(&wanted, speed_of_line()) != 0 || cfsetospeed(&wanted, speed_of_line()) != 0 || tcsetattr(fd, TCSANOW, &wanted) != 0)
        return false;
    /* tcsetattr is content if it could do any of it. */
    if (tcgetattr(fd, &taken) != 0)
        return false;
    const tcflag_t matters = CSIZE | PARENB | PARODD | CSTOPB;
    errno = EINVAL;
    return (taken.c_cflag & matters) == (wanted.c_cflag & matters) && cfgetospeed(&taken) == speed_of_line() && taken.c_iflag == wanted.c_iflag;
}

/* The kernel puts the driver onto the line for as long as it sends, by RTS. */
static bool set_direction(int fd, const char *name) {
    if (!line.rs485)
        return true;
#ifdef TIOCSRS485
    struct serial_rs485 direction = {.flags = SER_RS485_ENABLED | SER_RS485_RTS_ON_SEND};
    if (ioctl(fd, TIOCSRS485, &direction) == 0)
        return true;
    return complain("%s: --rs485: %s", name, strerror(errno));
#else
    (void)fd;
    return complain("%s: --rs485: this system has no such setting", name);
#endif
}

/* A UART collects: one of the usual kind hands over eight characters at once, or fewer when four character times are over, so that up to 121 bit times lie between
 * two characters as they are read, of which the pause covers a part. A pseudo terminal hands over at once. */
static uint64_t patience_of(int fd) {
    enum { COLLECTED = 7 * CHARACTER_BITS + 4 * CHARACTER_BITS };
    if (line.patience != PATIENCE_OF_PORT)
        return line.patience;
    return is_pseudo(fd) || line.pause > COLLECTED ? 0 : (uint64_t)(COLLECTED - line.pause) * line.ticks;
}

static bool settled(struct port *port) {
    if (!isatty(port->fd))
        return complain("%s: not a serial port", port->name);
    if (!set_raw(port->fd, INPCK | PARMRK))
        return complain("%s: 8 data bits, even parity and this rate cannot be set: %s", port->name, strerror(errno));
    if (!set_direction(port->fd, port->name))
        return false;
    port->echo = line.echo == ECHO_BY_TIME && is_pseudo(port->fd) ? ECHO_OFF : line.echo;
    line.patience = patience_of(port->fd);
    port_forget(port);
    return true;
}

/* Whether select can wait for it. */
static bool is_low(int fd) {
    errno = EMFILE;
    return fd < FD_SETSIZE;
}

bool port_open(struct port *port, const char *name) {
    *port = (struct port){.name = name, .fd = -1, .other_end = -1, .has_marks = true};
    port->fd = open(name, O_RDWR | O_NOCTTY | O_NONBLOCK);
    if (port->fd < 0 || !is_low(port->fd))
        return complain("%s: %s", name, strerror(errno));
    if (settled(port))
        return true;
    port_close(port);
    return false;
}

/* The other end is opened and set here too, so that a master finds a line on which every byte is as it is, and its going is no hang-up. */
static bool opened_pty(struct port *port, char *name, uint64_t name_room) {
    port->fd = posix_openpt(O_RDWR | O_NOCTTY);
    if (port->fd < 0 || !is_low(port->fd) || grantpt(port->fd) != 0 || unlockpt(port->fd) != 0)
        return false;
    const char *made = ptsname(port->fd);
    if (made == NULL || strlen(made) >= name_room)
        return false;
    memcpy(name, made, strlen(made) + 1);
    port->other_end = open(name, O_RDWR | O_NOCTTY);
    return port->other_end >= 0 && set_raw(port->other_end, 0) && fcntl(port->fd, F_SETFL, O_NONBLOCK) == 0;
}

bool port_make_pty(struct port *port, char *name, uint64_t name_room) {
    *port = (struct port){.name = "the pseudo terminal", .fd = -1, .other_end = -1};
    port->echo = line.echo == ECHO_BY_TIME ? ECHO_OFF : line.echo;
    line.patience = line.patience == PATIENCE_OF_PORT ? 0 : line.patience;
    if (line.rs485)
        return complain("--rs485 is for a serial port");
    if (opened_pty(port, name, name_room))
        return true;
    complain("no pseudo terminal can be had: %s", strerror(errno));
    port_close(port);
    return false;
}

void port_close(struct port *port) {
    if (port->fd >= 0)
        (void)close(port->fd);
    if (port->other_end >= 0)
        (void)close(port->other_end);
    port->fd = port->other_end = -1;
}

/* ---- receiving ------------------------------------------------------------------------------------------------------------------------------------------ */

bool unmarked(struct marks *marks, uint8_t byte, struct character *character) {
    enum { MARK = 0xFF };
    if (marks->seen == 0 && byte == MARK) {
        marks->seen = 1;
        return false;
    }
    if (marks->seen == 1 && byte == 0) {
        marks->seen = 2;
        return false;
    }
    *character = (struct character){byte, marks->seen == 2};
    marks->seen = 0;
    return true;
}

/* Whether a character that ended then is the next one of the own frame's echo. One that differs ends it: somebody else is on the line. */
static bool is_echo(struct port *port, struct character character, uint64_t ended) {
    if (port->echoed == port->sent_length)
        return false;
    bool same = !character.parity_fault && character.value == port->sent[port->echoed] && ended < port->echo_until;
    port->echoed = same ? port->echoed + 1 : port->sent_length;
    return same;
}

int port_receive(struct port *port, struct character *characters) {
    uint8_t bytes[MOST_AT_ONCE];
    int number = 0;
    ssize_t length = read(port->fd, bytes, sizeof bytes);
    if (length < 0 && (errno == EAGAIN || errno == EWOULDBLOCK || errno == EINTR))
        return 0;
    if (length <= 0) {
        errno = length == 0 ? 0 : errno;
        return -1;
    }
    uint64_t now = ticks_now(), spacing = (uint64_t)CHARACTER_BITS * line.ticks;
    for (ssize_t i = 0; i < length; i++) {
        struct character character = {bytes[i], false};
        if (port->has_marks && !unmarked(&port->marks, bytes[i], &character))
            continue;
        if (!is_echo(port, character, now - spacing * (uint64_t)(length - 1 - i)))
            characters[number++] = character;
    }
    return number;
}

bool port_gone(const struct port *port) {
    return complain("%s: the port is gone%s%s", port->name, errno == 0 ? "" : ": ", errno == 0 ? "" : strerror(errno));
}

void port_forget(struct port *port) {
    (void)tcflush(port->fd, TCIFLUSH);
    port->marks.seen = 0;
    port->echoed = port->sent_length;
}

/* ---- sending -------------------------------------------------------------------------------------------------------------------------------------------- */

/* Before when a character must have ended to be an echo. Nobody else may speak before a whole pause is over, so that his first character ends no earlier. */
static uint64_t end_of_echo(const struct port *port, uint64_t length) {
    if (port->echo == ECHO_ON)
        return NEVER;
    return ticks_now() + ((length + 1) * CHARACTER_BITS + line.pause) * line.ticks;
}

static void expect_echo(struct port *port, const uint8_t *frame, uint64_t length) {
    port->sent_length = port->echoed = 0;
    if (port->echo == ECHO_OFF || length > sizeof port->sent)
        return;
    memcpy(port->sent, frame, length);
    port->sent_length = (unsigned)length;
    port->echo_until = end_of_echo(port, length);
}

bool port_send(struct port *port, const uint8_t *frame, uint64_t length) {
    expect_echo(port, frame, length);
    while (length > 0) {
        ssize_t written = write(port->fd, frame, length);
        if (written < 0 && errno == EINTR)
            continue;
        /* A line on which nobody listens takes no more: what is left is lost, as on a wire. */
        if (written < 0 && (errno == EAGAIN || errno == EWOULDBLOCK))
            return true;
        if (written < 0)
            return false;
        frame += written;
        length -= (uint64_t)written;
    }
    return true;
}
