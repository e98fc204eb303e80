/* encoder: our board on a serial port or a pseudo terminal. All that it answers is decided by libquicksetter.a; here are the port, the clock, the file and the
 * commands on standard input. */
#define _XOPEN_SOURCE 700
#include "keep.h"
#include "port.h"
#include "quicksetter.h"
#include "tool.h"

#include <errno.h>
#include <fcntl.h>
#include <inttypes.h>
#include <signal.h>
#include <stdio.h>
#include <string.h>
#include <unistd.h>

const char *const tool_name = "encoder";

static const char HELP[] =
    "encoder PORT FILE [OPTION ..]    our board on a serial port\n"
    "encoder --pty FILE [OPTION ..]   on a pseudo terminal, whose name is printed\n"
    "FILE keeps memory and what else must last; one that is not there is made, for\n"
    "a new board. It is on the disk before a reply that tells of a change is sent\n"
    "  --total N       blocks of a new board, 1 to 112; left out 112\n"
    "  --bits N        position bits of a new board, 1 to 32; left out 24\n"
    "  --address N     of a new board, 0 to 31; left out 0\n"
    "  --serial TEXT   its serial number, at most 9 letters\n"
    "  --rate BAUD     600, 1200, 2400, 4800, 9600, 19200 or 38400; left out 9600\n"
    "  --pause N       bit times that close a frame, 22 or 55; left out 55\n"
    "  --position N    the measured position at the start; left out 0\n"
    "  --patience MS   the port delivers up to so late; left out as a UART does\n"
    "  --echo on|off   it hears itself; left out: told by the time, off on a pty\n"
    "  --rs485         the kernel switches the driver\n"
    "  --log FILE      adds both directions to it, as explain.py --log reads them\n"
    "Lines on standard input, each told when it is done:\n"
    "  position N      the measured position\n"
    "  fault CODE      notes a fault code, in hex\n"
    "  power-on        the supply came back\n"
    "It ends on SIGINT, SIGTERM or SIGHUP. Exit status: 0 ended so, 2 bad command\n"
    "line, 5 the port cannot be used or went away, 6 a file cannot be used\n";

/* ---- the board ------------------------------------------------------------------------------------------------------------------------------------------ */

static struct {
    uint8_t image[QS_IMAGE_LENGTH];
    uint8_t room[QS_REPLY_ROOM];
    struct kept kept; /* memory, and the lasting bytes as they are on the disk */
    bool is_new;     /* there is no file yet */
    uint64_t memory_length;
    uint64_t last;   /* the tick of the last character that was handed in, or of the reply behind it: nothing comes before that */
    uint64_t called; /* that of the last character or poll */
    uint64_t lag;    /* by how much the open frame's ticks are behind the clock */
    uint32_t sleep;  /* what the board told, or QS_NO_FRAME_OPEN */
} board;

/* What is given on the command line. 0 for blocks and bits: as the file says, or as a new board has them. */
static struct {
    uint32_t total, bits, address, position;
    bool is_pty;
    const char *serial;
    const char *log;
} given = {.serial = "VIRTUAL01"};

static struct port port;
static bool ended_by_port, ended_by_file;

/* ---- options -------------------------------------------------------------------------------------------------------------------------------------------- */

static bool take_serial(const char *value) {
    if (strlen(value) > QS_LABEL_SERIAL_SIZE)
        return complain("--serial has at most %d letters, not '%s'", QS_LABEL_SERIAL_SIZE, value);
    given.serial = value;
    return true;
}

static const struct option OPTIONS[] = {
    LINE_OPTIONS,
    {.name = "--pty", .flag = &given.is_pty},
    {.name = "--total", .number = &given.total, .least = 1, .most = LARGEST_TOTAL},
    {.name = "--bits", .number = &given.bits, .least = 1, .most = LARGEST_BITS},
    {.name = "--address", .number = &given.address, .least = 0, .most = 31},
    {.name = "--serial", .take = take_serial},
    {.name = "--position", .number = &given.position, .least = 0, .most = UINT32_MAX},
    {.name = "--log", .text = &given.log},
};

/* ---- the log -------------------------------------------------------------------------------------------------------------------------------------------- */

static struct {
    FILE *file;
    uint64_t start;    /* the tick that the log's times are counted from */
    bool frame_open;   /* characters of a frame stand on the last line */
    bool frame_faulty; /* one of them had a parity fault */
} logged;

/* Nothing that it is written to may keep the board from answering: what takes no more is given up. */
static bool log_open(void) {
    logged.start = ticks_now();
    if (given.log == NULL)
        return true;
    if (keep_is(given.log))
        return complain("%s: this is the board's file", given.log);
    int fd = open(given.log, O_WRONLY | O_APPEND | O_CREAT | O_NONBLOCK | O_NOCTTY, 0666);
    logged.file = fd < 0 ? NULL : fdopen(fd, "a");
    return logged.file != NULL || complain("%s: %s", given.log, strerror(errno));
}

/* A log that cannot be written is given up; the board goes on. */
static void log_to_file(void) {
    if (fflush(logged.file) == 0 && !ferror(logged.file))
        return;
    complain("%s: %s; nothing more is logged", given.log, strerror(errno));
    (void)fclose(logged.file);
    logged.file = NULL;
}

static void log_frame_ends(void) {
    if (logged.file == NULL || !logged.frame_open)
        return;
    fputs(logged.frame_faulty ? "  # with a parity fault\n" : "\n", logged.file);
    logged.frame_open = false;
    log_to_file();
}

static void log_close(void) {
    log_frame_ends();
    if (logged.file != NULL)
        (void)fclose(logged.file);
}

static void log_time(uint64_t tick, char direction) {
    fprintf(logged.file, "%" PRIu64 " ticks %c", tick > logged.start ? tick - logged.start : 0, direction);
}

/* The line begins with its first character and its tick; what is in between is not kept here. */
static void log_character(uint64_t tick, struct character character) {
    if (logged.file == NULL)
        return;
    if (!logged.frame_open) {
        log_time(tick, '>');
        logged.frame_faulty = false;
    }
    logged.frame_open = true;
    logged.frame_faulty |= character.parity_fault;
    fprintf(logged.file, " %02X", character.value);
}

static void log_reply(uint64_t tick, uint64_t length) {
    if (logged.file == NULL)
        return;
    log_time(tick, '<');
    for (uint64_t i = 0; i < length; i++)
        fprintf(logged.file, " %02X", board.room[i]);
    fputs("\n", logged.file);
    log_to_file();
}

/* ---- the start ------------------------------------------------------------------------------------------------------------------------------------------ */

/* What 52h and 56h tell. The UART settings agree with the line (000, table 28): rate, even parity, the pause, a standard slave. Of its memory 16 blocks are not
 * for fields, as on 000's board. */
static void make_label(uint8_t *label) {
    static const char version[] = "encoder " QS_VERSION, date[] = "16.11.26";
    enum { EVEN_PARITY = 0x20, LONG_PAUSE = 0x40, STANDARD_SLAVE = 0x80, ANY_TYPE = 0x07, NOT_FOR_FIELDS = 16 };
    uint8_t rate = 6;
    for (uint32_t ticks = line.ticks; ticks > 1; ticks /= 2)
        rate--;
    memset(label, 0, QS_LABEL_LENGTH);
    label[QS_LABEL_TYPE] = (uint8_t)(rate | EVEN_PARITY | (line.pause == 55 ? LONG_PAUSE : 0) | STANDARD_SLAVE);
    label[QS_LABEL_TYPE + 1] = ANY_TYPE;
    label[QS_LABEL_TYPE + 2] = (uint8_t)(board.kept.total + NOT_FOR_FIELDS);
    memcpy(label + QS_LABEL_SERIAL, given.serial, strlen(given.serial));
    memcpy(label + QS_LABEL_VERSION, version, sizeof version - 1);
    memcpy(label + QS_LABEL_DATE, date, sizeof date - 1);
}

static void take_lasting(void) {
    memcpy(board.kept.lasting, board.image + QS_IMAGE_LASTING, QS_LASTING_LENGTH);
}

static bool new_board(const uint8_t *label) {
    uint64_t made = qs_fresh(board.kept.total, board.kept.bits, given.address, line.ticks, line.pause, label, QS_LABEL_LENGTH, board.image, sizeof board.image);
    if (made != 0)
        return complain("the board refuses this plate");
    take_lasting();
    return true;
}

static bool old_board(const char *name, const uint8_t *label) {
    uint64_t made = qs_restart(board.kept.total, board.kept.bits, given.address, line.ticks, line.pause, label, QS_LABEL_LENGTH, board.kept.lasting,
                               QS_LASTING_LENGTH, board.image, sizeof board.image);
    return made == 0 || complain("%s: damaged: no board can have these codes, counter, address and offset", name);
}

static bool plate_differs(const char *name) {
    struct kept *kept = &board.kept;
    if ((given.total == 0 || given.total == kept->total) && (given.bits == 0 || given.bits == kept->bits))
        return false;
    complain("%s: the board in it has %" PRIu32 " blocks and %" PRIu32 " position bits", name, kept->total, kept->bits);
    return true;
}

/* The board in the file, or a new one: its image, as after power-on. Nothing is written yet. */
static bool board_starts(const char *name) {
    uint8_t label[QS_LABEL_LENGTH];
    enum found found = keep_open(name, &board.kept);
    if (found == FOUND_UNUSABLE || (found == FOUND_BOARD && plate_differs(name)))
        return false;
    board.is_new = found == FOUND_NONE;
    if (board.is_new) {
        board.kept.total = given.total == 0 ? LARGEST_TOTAL : given.total;
        board.kept.bits = given.bits == 0 ? 24 : given.bits;
    }
    board.memory_length = QS_MEMORY_LENGTH(board.kept.total);
    board.sleep = QS_NO_FRAME_OPEN;
    make_label(label);
    if (!(board.is_new ? new_board(label) : old_board(name, label)))
        return false;
    (void)qs_measured(board.image, sizeof board.image, given.position);
    return true;
}

/* ---- characters ----------------------------------------------------------------------------------------------------------------------------------------- */

static bool frame_is_open(void) {
    return board.sleep != QS_NO_FRAME_OPEN;
}

static uint64_t less(uint64_t from, uint64_t taken) {
    return from > taken ? from - taken : 0;
}

/* What a call returned: the reply's length, 0 for none. Lengths are right and the image is what the last call left, so that no call is refused. */
static uint64_t told(uint64_t tick, uint64_t result) {
    board.called = tick;
    board.sleep = QS_IS_REFUSED(result) ? QS_NO_FRAME_OPEN : QS_SLEEP(result);
    return QS_IS_REFUSED(result) ? 0 : QS_REPLY(result);
}

/* What the reply acknowledges is on the disk before it is sent. */
static bool kept_for_reply(void) {
    if (!QS_MAY_CHANGE(board.room[1]))
        return true;
    take_lasting();
    ended_by_file = !keep_write(&board.kept);
    return !ended_by_file;
}

/* A character at its tick. A reply is to the frame that it closed: the master sends again already, so it is kept and not sent. */
static void hand_in(uint64_t tick, struct character character) {
    uint64_t length = told(tick, qs_character(board.image, sizeof board.image, (uint32_t)tick, character.value, character.parity_fault, board.kept.memory,
                                              board.memory_length, board.room, sizeof board.room));
    if (length != 0)
        (void)kept_for_reply();
}

/* Whether a character at this tick closes the open frame, as the board told; then its line of the log ends before. */
static bool closes(uint64_t tick) {
    return frame_is_open() && tick - board.called >= board.sleep;
}

/* Characters that were read in one go: the last one ended now, the others eleven bits apart before it, none before the last one that was handed in or the reply to
 * it. Where the adapter may deliver late, the gap before them is shorter by its patience: by as much the frame's ticks stay behind the clock from there on. */
static void take_characters(const struct character *characters, int number, uint64_t now) {
    uint64_t spacing = (uint64_t)CHARACTER_BITS * line.ticks;
    uint64_t span = spacing * (uint64_t)(number - 1);
    if (!frame_is_open())
        board.lag = 0;
    else {
        uint64_t gap = less(less(now, board.lag + span), board.last);
        board.lag += gap < line.patience ? gap : line.patience;
    }
    for (int i = 0; i < number && !ended_by_file; i++) {
        uint64_t tick = less(now, board.lag + span - spacing * (uint64_t)i);
        if (tick < board.last)
            tick = board.last;
        board.last = tick;
        if (closes(tick))
            log_frame_ends();
        log_character(tick, characters[i]);
        hand_in(tick, characters[i]);
    }
}

static void receive(void) {
    struct character characters[MOST_AT_ONCE];
    int number = port_receive(&port, characters);
    if (number > 0)
        take_characters(characters, number, ticks_now());
    if (number >= 0)
        return;
    ended_by_port = true;
    port_gone(&port);
}

static bool has_character(void) {
    return wait_for(port.fd, -1, 0, NULL).first;
}

/* ---- replies -------------------------------------------------------------------------------------------------------------------------------------------- */

/* When the open frame's pause is over by the clock; NEVER while none is open. */
static uint64_t due(void) {
    return frame_is_open() ? board.called + board.sleep + board.lag + line.patience : NEVER;
}

/* Where the disk took so long that the master sends again already, it is not sent: the two would meet on the line. */
static void send_reply(uint64_t length) {
    if (!kept_for_reply() || has_character())
        return;
    if (!port_send(&port, board.room, length)) {
        ended_by_port = true;
        port_gone(&port);
        return;
    }
    board.last = ticks_now();
    log_reply(board.last, length);
}

/* No character came up to the end of the pause: the poll is for that very tick, however late this process was woken. */
static void poll_board(void) {
    uint64_t tick = board.called + board.sleep;
    uint64_t length =
        told(tick, qs_poll(board.image, sizeof board.image, (uint32_t)tick, board.kept.memory, board.memory_length, board.room, sizeof board.room));
    log_frame_ends();
    if (length != 0)
        send_reply(length);
}

/* ---- commands ------------------------------------------------------------------------------------------------------------------------------------------- */

/* What a command did, for whom listens. */
static bool is_listened_to(void) {
    clearerr(stdout);
    return takes_a_line(STDOUT_FILENO);
}

static void command_position(const char *said) {
    uint32_t position;
    if (!number_in(said, "a position", 0, UINT32_MAX, &position))
        return;
    (void)qs_measured(board.image, sizeof board.image, position);
    if (is_listened_to())
        printf("position %" PRIu32 "\n", position);
}

static void command_fault(const char *said) {
    uint8_t code;
    if (!hex_byte_in(said, "a fault code", &code))
        return;
    (void)qs_fault(board.image, sizeof board.image, code);
    if (is_listened_to())
        printf("fault %02Xh\n", code);
}

static void command_power_on(void) {
    (void)qs_power_on(board.image, sizeof board.image);
    board.sleep = QS_NO_FRAME_OPEN;
    log_frame_ends();
    if (is_listened_to())
        printf("power-on\n");
}

/* What stands behind a word, or NULL if the line does not begin with it. */
static const char *behind(const char *said, const char *word) {
    size_t length = strlen(word);
    return strncmp(said, word, length) == 0 ? said + length : NULL;
}

static void take_command(const char *said) {
    if (behind(said, "position ") != NULL)
        command_position(behind(said, "position "));
    else if (behind(said, "fault ") != NULL)
        command_fault(behind(said, "fault "));
    else if (strcmp(said, "power-on") == 0)
        command_power_on();
    else if (said[0] != '\0')
        complain("no command: '%s'; there are position N, fault CODE and power-on", said);
    (void)fflush(stdout);
}

static struct {
    int fd; /* -1 once nothing more comes */
    char said[80];
    unsigned length;
    bool is_too_long;
} commands = {.fd = STDIN_FILENO};

static void command_ends(void) {
    if (commands.is_too_long)
        complain("a line of commands has at most %u letters", (unsigned)sizeof commands.said - 1);
    commands.said[commands.length] = '\0';
    if (!commands.is_too_long)
        take_command(commands.said);
    commands.length = 0;
    commands.is_too_long = false;
}

static void take_letter(char letter) {
    if (letter == '\n')
        command_ends();
    else if (commands.length + 1 == sizeof commands.said)
        commands.is_too_long = true;
    else if (letter != '\r')
        commands.said[commands.length++] = letter;
}

/* The board goes on when nobody commands any more. */
static void read_commands(void) {
    char letters[256];
    ssize_t number = read(commands.fd, letters, sizeof letters);
    if (number < 0 && (errno == EINTR || errno == EAGAIN))
        return;
    if (number <= 0)
        commands.fd = -1;
    for (ssize_t i = 0; i < number; i++)
        take_letter(letters[i]);
}

/* ---- the loop ------------------------------------------------------------------------------------------------------------------------------------------- */

static const int ENDING[] = {SIGINT, SIGTERM, SIGHUP};

static volatile sig_atomic_t stopped;
static sigset_t held; /* those of them that are not ignored */

static void stop(int signal_number) {
    (void)signal_number;
    stopped = 1;
}

/* The signals that end it are let in only while it waits, so that none falls between the look at them and the wait. One that is ignored, as nohup and & leave it,
 * stays so. Returns the signals as they are while it waits. */
static sigset_t signals_begin(void) {
    struct sigaction action = {.sa_handler = stop}, ignored = {.sa_handler = SIG_IGN}, before_it;
    sigset_t waiting;
    sigemptyset(&held);
    for (unsigned i = 0; i < PLACES(ENDING); i++) {
        if (sigaction(ENDING[i], NULL, &before_it) == 0 && before_it.sa_handler == SIG_IGN)
            continue;
        (void)sigaction(ENDING[i], &action, NULL);
        sigaddset(&held, ENDING[i]);
    }
    (void)sigaction(SIGTTIN, &ignored, NULL); /* in the background its commands are at an end */
    (void)sigprocmask(SIG_BLOCK, &held, &waiting);
    for (unsigned i = 0; i < PLACES(ENDING); i++)
        sigdelset(&waiting, ENDING[i]);
    return waiting;
}

/* Where there is always something to read, a wait lets no signal in. */
static bool is_stopped(void) {
    sigset_t pending;
    bool found = stopped != 0;
    if (sigpending(&pending) != 0)
        return found;
    for (unsigned i = 0; i < PLACES(ENDING); i++)
        found = found || (sigismember(&held, ENDING[i]) == 1 && sigismember(&pending, ENDING[i]) == 1);
    return found;
}

/* Whether the open frame's pause is over. The clock is read before the port: a character that ended in time is found there, and is no poll's. */
static bool pause_is_over(void) {
    return ticks_now() >= due() && !has_character();
}

/* Sleeps until a character, a command, a signal, or the tick that the board told. */
static void serve(sigset_t open_signals) {
    while (!is_stopped() && !ended_by_port && !ended_by_file) {
        struct woken woken = wait_for(port.fd, commands.fd, due(), &open_signals);
        if (woken.first)
            receive();
        else if (pause_is_over())
            poll_board();
        if (woken.second)
            read_commands();
    }
}

static char pty_name[64];

static bool line_opens(const char *name) {
    return given.is_pty ? port_make_pty(&port, pty_name, sizeof pty_name) : port_open(&port, name);
}

/* Its name is for whom the board answers from now on. */
static void tell_pty(void) {
    if (!given.is_pty)
        return;
    printf("%s\n", pty_name);
    (void)fflush(stdout);
}

static enum status run(const struct words *words) {
    sigset_t open_signals = signals_begin();
    if (!board_starts(words->word[words->number - 1]))
        return ENDED_FILE;
    if (!line_opens(words->word[0]))
        return ENDED_PORT;
    if ((board.is_new && !keep_write(&board.kept)) || !log_open())
        return ENDED_FILE;
    tell_pty();
    drops_what_nobody_reads = true;
    serve(open_signals);
    log_close();
    port_close(&port);
    clearerr(stdout); /* that nobody listened any more is well */
    return ended_by_port ? ENDED_PORT : ended_by_file ? ENDED_FILE : ENDED_DONE;
}

static bool is_use(const struct words *words) {
    return words->number == (given.is_pty ? 1 : 2);
}

static const struct tool ENCODER = {.help = HELP,
                                    .options = OPTIONS,
                                    .number_of_options = PLACES(OPTIONS),
                                    .is_use = is_use,
                                    .wants = "wants a port, or --pty, and a file; --help has more",
                                    .run = run};

int main(int argc, char **argv) {
    return tool_main(argc, argv, &ENCODER);
}
