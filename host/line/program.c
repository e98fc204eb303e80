/* program: puts a label onto a board over a serial port. Which requests are sent, and when it is done, is decided by the proved programmer of libhandheld.a. */
#define _XOPEN_SOURCE 700
#include "label.h"
#include "master.h"
#include "programmer.h"
#include "words.h"

#include <errno.h>
#include <fcntl.h>
#include <inttypes.h>
#include <stdio.h>
#include <string.h>
#include <time.h>
#include <unistd.h>

const char *const tool_name = "program";

static const char HELP[] =
    "program PORT LABEL [OPTION ..]   puts a label onto a board\n"
    "program --check LABEL            tests a label; no port is needed\n"
    "LABEL is a text as tools/label.py takes it, or a label tape. The board's old\n"
    "fields are deleted, the label's created, stored, read back and locked where\n"
    "read-only. Before that the old ones are saved as a label tape, to be put back\n"
    "  --save FILE     where to; left out LABEL.before-YYYYMMDD-HHMMSS\n"
    "  --no-save       they are not saved\n"
    "  --address N     0 to 31, or all; left out 0\n"
    "  --rate BAUD     600, 1200, 2400, 4800, 9600, 19200 or 38400; left out 9600\n"
    "  --pause N       bit times that close a frame, 22 or 55; left out 55\n"
    "  --patience MS   the port delivers up to so late; left out as a UART does\n"
    "  --echo on|off   it hears itself; left out: told by the time, off on a pty\n"
    "  --rs485         the kernel switches the driver\n"
    "Exit status: 0 done, 1 the board answered with an error code, 2 bad command\n"
    "line, 3 a reply was refused, or other bytes were read back, 4 silence, 5 port\n"
    "fault, 6 a file cannot be used. A run that failed is repaired by a new one\n";

/* ---- options -------------------------------------------------------------------------------------------------------------------------------------------- */

static struct {
    bool check, no_save;
    const char *save;
} given;

static const struct option OPTIONS[] = {
    MASTER_OPTIONS,
    {.name = "--check", .flag = &given.check},
    {.name = "--save", .text = &given.save},
    {.name = "--no-save", .flag = &given.no_save},
};

static struct tape wanted;
static struct exchange exchange;

static void print_summary(const struct tape *tape) {
    print_counted(tape->fields, "field");
    printf(", ");
    print_counted(tape->blocks, "block");
}

/* ---- what was on the board before ----------------------------------------------------------------------------------------------------------------------- */

static struct tape before;

/* A request of which only a good answer will do; else it tells why there is none. */
static enum status asked(const char *what, uint8_t command, const uint8_t *data, uint64_t length) {
    uint32_t verdict = master_ask(&exchange, command, data, length);
    enum status status = master_status(&exchange, verdict);
    if (status == ENDED_DONE || status == ENDED_PORT)
        return status;
    printf("nothing was changed: %s: ", what);
    print_failure(&exchange, verdict);
    printf("\n");
    return status;
}

/* Reads one field, with the label's code that its status names. */
static enum status read_field(uint8_t field) {
    char what[40];
    uint64_t length;
    snprintf(what, sizeof what, "the old field %u cannot be saved", field);
    enum status status = asked(what, QS_FIELD_STATUS, &field, 1);
    if (status != ENDED_DONE)
        return status;
    uint8_t stored = master_data(&exchange, &length)[1];
    unsigned size = blocks_of(stored) * QS_BLOCK;
    uint8_t code = tape_codes(&wanted)[(stored & QS_STATUS_CODE_NUMBER) >> 4];
    const uint8_t whole[] = {field, 0, (uint8_t)size, code};
    status = asked(what, QS_READ_DATA, whole, sizeof whole);
    if (status == ENDED_DONE)
        memcpy(tape_add_field(&before, stored | QS_STATUS_EXISTS), master_data(&exchange, &length) + 3, size);
    return status;
}

static enum status read_board(void) {
    uint64_t length;
    enum status status = asked("the old fields cannot be counted", QS_MEMORY_STATUS, NULL, 0);
    if (status != ENDED_DONE)
        return status;
    unsigned fields = master_data(&exchange, &length)[1];
    tape_start(&before, tape_codes(&wanted));
    for (unsigned field = 0; field < fields && status == ENDED_DONE; field++)
        status = read_field((uint8_t)field);
    return status;
}

/* By the label's name and the time, so that no two runs save to one file. */
static bool default_name(const char *label, char *name, size_t room) {
    time_t now = time(NULL);
    const struct tm *local = localtime(&now);
    size_t length = strlen(label);
    if (local == NULL || length + sizeof ".before-YYYYMMDD-HHMMSS" > room)
        return complain("%s: no name for what was on the board; --save gives one", label);
    memcpy(name, label, length);
    return strftime(name + length, room - length, ".before-%Y%m%d-%H%M%S", local) != 0;
}

/* A file that is there already is somebody's, and left alone. */
static bool write_before(const char *name) {
    int fd = open(name, O_WRONLY | O_CREAT | O_EXCL, 0666);
    if (fd < 0)
        return complain("%s: %s", name, strerror(errno));
    bool good = write_whole(fd, before.bytes, before.length) && fsync(fd) == 0 && folder_to_disk(name);
    int reason = errno;
    (void)close(fd);
    if (good)
        return true;
    (void)unlink(name);
    return complain("%s: %s", name, strerror(reason));
}

static enum status save(const char *label) {
    char made[4096];
    const char *name = given.save == NULL ? made : given.save;
    enum status status = read_board();
    if (status != ENDED_DONE)
        return status;
    if (before.fields == 0) {
        printf("no field was on the board\n");
        return ENDED_DONE;
    }
    if ((given.save == NULL && !default_name(label, made, sizeof made)) || !write_before(name))
        return ENDED_FILE;
    printf("saved to %s: ", name);
    print_summary(&before);
    printf("\n");
    return ENDED_DONE;
}

/* ---- the run -------------------------------------------------------------------------------------------------------------------------------------------- */

enum { STEP_ROOM = 32 };

static const char *step_words(uint64_t run, char *words) {
    static const char *const steps[] = {
        [QP_COUNT] = "count the fields", [QP_LOOK] = "read the status of field", [QP_REMOVE] = "delete field", [QP_CREATE] = "create field",
        [QP_STORE] = "store field",      [QP_READ] = "read back field",          [QP_LOCK] = "lock field",
    };
    if (QP_STAGE(run) == QP_COUNT)
        return steps[QP_COUNT];
    snprintf(words, STEP_ROOM, "%s %u", steps[QP_STAGE(run)], QP_FIELD(run));
    return words;
}

static void print_bar(uint32_t answered, uint32_t in_all) {
    enum { WIDTH = 30 };
    printf("\r[");
    for (unsigned i = 0; i < WIDTH; i++)
        putchar(i * in_all < answered * WIDTH ? '#' : '.');
    printf("] ");
}

/* On a terminal one line with a bar that grows, else a line for each request that was answered as wanted. */
static void tell_progress(uint64_t due, uint64_t run, bool is_terminal) {
    char words[STEP_ROOM];
    uint64_t progress = qp_progress(run, wanted.bytes, wanted.length);
    uint32_t answered = QP_ANSWERED(progress), in_all = QP_IN_ALL(progress);
    if (is_terminal)
        print_bar(answered, in_all);
    printf(is_terminal ? "%4" PRIu32 " of %" PRIu32 "  %-28s" : "%4" PRIu32 " of %" PRIu32 "  %s\n", answered, in_all, step_words(due, words));
    (void)fflush(stdout);
}

/* Why the run's last request failed, and how the program ends. */
static enum status tell_why(uint64_t run) {
    if (QP_WHY(run) == QP_WHY_DIFFERS) {
        printf("what was read back is not what was stored\n");
        return ENDED_REFUSED;
    }
    uint32_t verdict = qs_judge(exchange.request, exchange.request_length, exchange.reply, exchange.reply_length);
    print_failure(&exchange, verdict);
    printf("\n");
    return master_status(&exchange, verdict);
}

static enum status tell_failure(uint64_t run) {
    char words[STEP_ROOM];
    uint64_t progress = qp_progress(run, wanted.bytes, wanted.length);
    if (exchange.heard == HEARD_GONE)
        return ENDED_PORT;
    printf("failed after %" PRIu32 " of %" PRIu32 " requests: %s: ", QP_ANSWERED(progress), QP_IN_ALL(progress), step_words(run, words));
    return tell_why(run);
}

static enum status tell_done(void) {
    printf("done: the board holds ");
    print_summary(&wanted);
    printf("\n");
    return ENDED_DONE;
}

/* One request after another until none is due. The tape is good and the run its own, so that no call is refused. */
static enum status put_onto_board(void) {
    bool is_terminal = isatty(STDOUT_FILENO);
    uint64_t run = qp_start(asked_address, wanted.bytes, wanted.length);
    while ((exchange.request_length = qp_next(run, wanted.bytes, wanted.length, exchange.request, sizeof exchange.request)) != 0) {
        uint64_t due = run;
        master_exchange(&exchange);
        run = qp_heard(run, wanted.bytes, wanted.length, exchange.reply, exchange.reply_length);
        if (QP_HAS_FAILED(run))
            break;
        tell_progress(due, run, is_terminal);
        has_open_line = is_terminal;
    }
    if (has_open_line)
        printf("\n");
    has_open_line = false;
    return QP_HAS_FAILED(run) ? tell_failure(run) : tell_done();
}

/* ---- the program ---------------------------------------------------------------------------------------------------------------------------------------- */

static enum status check(const char *label) {
    printf("%s: good: ", label);
    print_summary(&wanted);
    printf(" needed\n");
    return ENDED_DONE;
}

static enum status run(const struct words *words) {
    const char *label = words->word[words->number - 1];
    if (!label_in(label, &wanted))
        return ENDED_FILE;
    if (given.check)
        return check(label);
    if (!master_open(words->word[0]))
        return ENDED_PORT;
    enum status status = given.no_save ? ENDED_DONE : save(label);
    if (status == ENDED_DONE)
        status = put_onto_board();
    master_close();
    return status;
}

static bool is_use(const struct words *words) {
    return words->number == (given.check ? 1 : 2) && (given.save == NULL || !given.no_save);
}

static const struct tool PROGRAM = {.help = HELP,
                                    .options = OPTIONS,
                                    .number_of_options = PLACES(OPTIONS),
                                    .is_use = is_use,
                                    .wants = "wants a port and a label, or --check and a label, and one of --save and --no-save at most; --help has more",
                                    .run = run};

int main(int argc, char **argv) {
    return tool_main(argc, argv, &PROGRAM);
}
