/* Command lines, numbers and complaints: see tool.h. */
#define _XOPEN_SOURCE 700
#include "tool.h"

#include <errno.h>
#include <fcntl.h>
#include <signal.h>
#include <stdarg.h>
#include <stdio.h>
#include <string.h>
#include <sys/select.h>
#include <unistd.h>

bool drops_what_nobody_reads, has_open_line;

bool takes_a_line(int fd) {
    struct timeval at_once = {0, 0};
    fd_set writable;
    FD_ZERO(&writable);
    FD_SET(fd, &writable);
    return !drops_what_nobody_reads || select(fd + 1, NULL, &writable, NULL, &at_once) == 1;
}

static void end_open_line(void) {
    if (!has_open_line)
        return;
    printf("\n");
    (void)fflush(stdout);
    has_open_line = false;
}

/* It is one line, whatever stands in an argument. */
bool complain(const char *form, ...) {
    char said[1024];
    va_list arguments;
    va_start(arguments, form);
    vsnprintf(said, sizeof said, form, arguments);
    va_end(arguments);
    for (char *letter = said; *letter != '\0'; letter++)
        if ((unsigned char)*letter < ' ' || *letter == 127)
            *letter = '?';
    if (!takes_a_line(STDERR_FILENO))
        return false;
    end_open_line();
    fprintf(stderr, "%s: %s\n", tool_name, said);
    return false;
}

/* ---- files ---------------------------------------------------------------------------------------------------------------------------------------------- */

bool write_whole(int fd, const uint8_t *bytes, uint64_t length) {
    while (length > 0) {
        ssize_t written = write(fd, bytes, length);
        if (written < 0 && errno == EINTR)
            continue;
        if (written < 0)
            return false;
        bytes += written;
        length -= (uint64_t)written;
    }
    return true;
}

bool folder_to_disk(const char *file) {
    char folder[4096] = ".";
    const char *slash = strrchr(file, '/');
    size_t length = slash == NULL ? 1 : slash == file ? 1 : (size_t)(slash - file);
    if (length >= sizeof folder)
        return false;
    if (slash != NULL)
        memcpy(folder, file, length);
    folder[length] = '\0';
    int fd = open(folder, O_RDONLY);
    if (fd < 0)
        return false;
    bool good = fsync(fd) == 0;
    int reason = errno;
    (void)close(fd);
    errno = reason;
    return good;
}

/* ---- as people write them ------------------------------------------------------------------------------------------------------------------------------- */

int hex_value(char digit) {
    if (digit >= '0' && digit <= '9')
        return digit - '0';
    if (digit >= 'a' && digit <= 'f')
        return digit - 'a' + 10;
    return digit >= 'A' && digit <= 'F' ? digit - 'A' + 10 : -1;
}

/* The number that digits of this base say; UINT64_MAX if one is none, or if it is beyond 32 bits. */
static uint64_t number_of(const char *digits, int base) {
    uint64_t number = 0;
    if (*digits == '\0')
        return UINT64_MAX;
    for (; *digits != '\0'; digits++) {
        int value = hex_value(*digits);
        if (value < 0 || value >= base)
            return UINT64_MAX;
        number = number * (uint64_t)base + (uint64_t)value;
        if (number > UINT32_MAX)
            return UINT64_MAX;
    }
    return number;
}

static bool has_hex_mark(const char *text) {
    return text[0] == '0' && (text[1] == 'x' || text[1] == 'X');
}

bool number_in(const char *text, const char *what, uint32_t least, uint32_t most, uint32_t *number) {
    uint64_t value = has_hex_mark(text) ? number_of(text + 2, 16) : number_of(text, 10);
    if (value < least || value > most)
        return complain("%s is %lu to %lu, not '%s'", what, (unsigned long)least, (unsigned long)most, text);
    *number = (uint32_t)value;
    return true;
}

bool hex_byte_in(const char *text, const char *what, uint8_t *byte) {
    char digits[3] = {0};
    const char *start = has_hex_mark(text) ? text + 2 : text;
    size_t length = strlen(start);
    if (start == text && length > 1 && (text[length - 1] == 'h' || text[length - 1] == 'H'))
        length--;
    if (length == 0 || length > 2)
        return complain("%s is a byte in hex, not '%s'", what, text);
    memcpy(digits, start, length);
    uint64_t value = number_of(digits, 16);
    if (value > UINT8_MAX)
        return complain("%s is a byte in hex, not '%s'", what, text);
    *byte = (uint8_t)value;
    return true;
}

bool hex_bytes_in(const char *text, const char *what, uint8_t *bytes, uint64_t room, uint64_t *length) {
    const char *at = text;
    while (*at != '\0') {
        if (*at == ' ') {
            at++;
            continue;
        }
        int high = hex_value(at[0]);
        int low = high < 0 ? -1 : hex_value(at[1]);
        if (low < 0)
            return complain("%s is pairs of hex digits, not '%s'", what, text);
        if (*length == room)
            return complain("%s has at most %lu bytes", what, (unsigned long)room);
        bytes[(*length)++] = (uint8_t)(high * 16 + low);
        at += 2;
    }
    return true;
}

void print_hex(const uint8_t *bytes, uint64_t length) {
    for (uint64_t i = 0; i < length; i++)
        printf("%s%02X", i == 0 ? "" : " ", bytes[i]);
}

/* ---- options -------------------------------------------------------------------------------------------------------------------------------------------- */

static const struct option *option_named(const char *name, const struct tool *tool) {
    for (unsigned i = 0; i < tool->number_of_options; i++)
        if (strcmp(tool->options[i].name, name) == 0)
            return &tool->options[i];
    return NULL;
}

static bool has_value(const struct option *option) {
    return option->flag == NULL;
}

static bool take_option(const struct option *option, const char *value) {
    if (option->number != NULL)
        return number_in(value, option->name, option->least, option->most, option->number);
    if (option->take != NULL)
        return option->take(value);
    if (option->text != NULL)
        *option->text = value;
    else
        *option->flag = true;
    return true;
}

/* Whether an option of this name stands in the words before; the value of another option may look like one. */
static bool stands_before(char **argv, int place, const struct tool *tool) {
    for (int i = 1; i < place; i++) {
        const struct option *option = option_named(argv[i], tool);
        if (option != NULL && strcmp(argv[i], argv[place]) == 0)
            return true;
        i += option != NULL && has_value(option);
    }
    return false;
}

static bool command_line_in(int argc, char **argv, const struct tool *tool, struct words *words) {
    words->number = 0;
    for (int i = 1; i < argc; i++) {
        const struct option *option = option_named(argv[i], tool);
        if (option == NULL && strncmp(argv[i], "--", 2) == 0)
            return complain("there is no option %s; --help lists them", argv[i]);
        if (option == NULL && words->number == MOST_WORDS)
            return complain("too many words");
        if (option == NULL) {
            words->word[words->number++] = argv[i];
            continue;
        }
        if (stands_before(argv, i, tool))
            return complain("%s stands twice", option->name);
        if (has_value(option) && i + 1 == argc)
            return complain("%s wants a value; --help has it", option->name);
        if (!take_option(option, has_value(option) ? argv[++i] : NULL))
            return false;
    }
    return tool->is_use(words) || complain("%s", tool->wants);
}

/* ---- a program ------------------------------------------------------------------------------------------------------------------------------------------ */

/* What is closed of standard input, output and error is opened on nothing, so that no port or file takes its place. */
static void hold_standard_descriptors(void) {
    int fd;
    do
        fd = open("/dev/null", O_RDWR);
    while (fd >= 0 && fd <= STDERR_FILENO);
    if (fd > STDERR_FILENO)
        (void)close(fd);
}

/* Wherever it stands. */
static bool asks_for_help(int argc, char **argv) {
    for (int i = 1; i < argc; i++)
        if (strcmp(argv[i], "--help") == 0 || strcmp(argv[i], "-h") == 0)
            return true;
    return false;
}

static enum status helped(const struct tool *tool) {
    fputs(tool->help, stdout);
    return ENDED_DONE;
}

static enum status written_out(enum status status) {
    if (fflush(stdout) == 0 && !ferror(stdout))
        return status;
    complain("standard output cannot be written");
    return ENDED_FILE;
}

enum status tool_main(int argc, char **argv, const struct tool *tool) {
    struct words words;
    hold_standard_descriptors();
    (void)signal(SIGPIPE, SIG_IGN); /* who stops reading is told of, and ends no run half done */
    if (asks_for_help(argc, argv))
        return written_out(helped(tool));
    if (!command_line_in(argc, argv, tool, &words))
        return ENDED_COMMAND_LINE;
    return written_out(tool->run(&words));
}
