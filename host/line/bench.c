/* bench: one request to a board over a serial port, its answer in words; or a survey of all that a board tells. Requests are written and replies judged by the
 * proved bench of libquicksetter.a. */
#define _XOPEN_SOURCE 700
#include "master.h"
#include "words.h"

#include <inttypes.h>
#include <stdio.h>
#include <string.h>

const char *const tool_name = "bench";

static const char HELP[] =
    "bench PORT [OPTION ..] REQUEST   one request to a board, and its answer in words\n"
    "bench PORT [OPTION ..] survey    all that a board tells; its faults are read,\n"
    "                                 which removes them\n"
    "  read-position              read-counter             memory-status\n"
    "  set-position N             increment-counter        read-encoder-status\n"
    "  read-type-label            reset-counter            encoder-reset\n"
    "  read-version               set-encoder-address N    set-access-code N OLD NEW\n"
    "  read-field FIELD OFFSET COUNT      or read-data\n"
    "  store-field FIELD OFFSET BYTES ..  or store-data; bytes in hex, or by --text\n"
    "  field-status FIELD                 or data-field-status\n"
    "  create-field FIELD STATUS          or create-data-field; changes, deletes too\n"
    "Codes, statuses and bytes are hex, other numbers decimal or 0x..\n"
    "  --address N     0 to 31, or all; left out 0\n"
    "  --code CODE     the access code; left out 55\n"
    "  --codes CODES   the four for a survey, `55 55 55 55`; left out these\n"
    "  --text TEXT     the bytes of store-field\n"
    "  --raw           request and reply as bytes\n"
    "  --rate BAUD     600 to 38400; left out 9600   --pause N  22 or 55; left out 55\n"
    "  --patience MS   the port delivers up to so late; left out as a UART does\n"
    "  --echo on|off   it hears itself; left out: told by the time, off on a pty\n"
    "  --rs485         the kernel switches the driver\n"
    "Exit status: 0 done, 1 the board answered with an error code, 2 bad command\n"
    "line, 3 reply refused, 4 silence, 5 port fault, 6 output cannot be written.\n"
    "A survey ends in 0 if all was answered\n";

/* ---- options -------------------------------------------------------------------------------------------------------------------------------------------- */

enum { NUMBER_OF_CODES = 4 };

static struct {
    uint8_t code;
    uint8_t codes[NUMBER_OF_CODES];
    const char *text;
    bool raw;
} given = {.code = 0x55, .codes = {0x55, 0x55, 0x55, 0x55}};

static bool take_code(const char *value) {
    return hex_byte_in(value, "--code", &given.code);
}

static bool take_codes(const char *value) {
    uint64_t number = 0;
    if (!hex_bytes_in(value, "--codes", given.codes, NUMBER_OF_CODES, &number))
        return false;
    return number == NUMBER_OF_CODES || complain("--codes are four, not '%s'", value);
}

static const struct option OPTIONS[] = {
    MASTER_OPTIONS,
    {.name = "--code", .take = take_code},
    {.name = "--codes", .take = take_codes},
    {.name = "--text", .text = &given.text},
    {.name = "--raw", .flag = &given.raw},
};

/* ---- a request from words ------------------------------------------------------------------------------------------------------------------------------- */

enum { MOST_STORED = 128, MOST_DATA = QS_REQUEST_BUFFER - 3 };

struct data {
    uint8_t bytes[MOST_DATA];
    uint64_t length;
};

/* The words of a request, taken one by one. */
struct reading {
    const struct words *words;
    unsigned next;
};

static const char *next_word(struct reading *reading) {
    return reading->next < reading->words->number ? reading->words->word[reading->next++] : NULL;
}

static bool add_number(struct data *data, const char *word, const char *what, uint32_t most, unsigned size) {
    uint32_t number;
    if (word == NULL)
        return complain("%s is missing", what);
    if (!number_in(word, what, 0, most, &number))
        return false;
    for (unsigned i = size; i-- > 0;)
        data->bytes[data->length++] = (uint8_t)(number >> 8 * i);
    return true;
}

static bool add_hex(struct data *data, const char *word, const char *what) {
    if (word == NULL)
        return complain("%s is missing", what);
    return hex_byte_in(word, what, &data->bytes[data->length++]);
}

/* The board has the address byte, people its number. */
static bool add_address(struct data *data, const char *word) {
    if (!add_number(data, word, "the new address", 31, 1))
        return false;
    data->bytes[data->length - 1] += 0x40;
    return true;
}

/* All words that are left, or --text. */
static bool add_data(struct data *data, struct reading *reading) {
    uint8_t stored[MOST_STORED];
    uint64_t number = 0;
    const char *word;
    if (given.text != NULL && strlen(given.text) > sizeof stored)
        return complain("--text has at most %u bytes", (unsigned)sizeof stored);
    if (given.text != NULL) {
        number = strlen(given.text);
        memcpy(stored, given.text, number);
    }
    while ((word = next_word(reading)) != NULL) {
        if (given.text != NULL)
            return complain("bytes or --text, not both: '%s'", word);
        if (!hex_bytes_in(word, "what is stored", stored, sizeof stored, &number))
            return false;
    }
    memcpy(data->bytes + data->length, stored, number);
    data->length += number;
    return true;
}

static bool add_part(struct data *data, char part, struct reading *reading) {
    switch (part) {
    case PART_FIELD: return add_number(data, next_word(reading), "the field", 255, 1);
    case PART_OFFSET: return add_number(data, next_word(reading), "the offset", 255, 1);
    case PART_COUNT: return add_number(data, next_word(reading), "the count", 255, 1);
    case PART_STATUS: return add_hex(data, next_word(reading), "the status");
    case PART_POSITION: return add_number(data, next_word(reading), "the position", UINT32_MAX, 4);
    case PART_CODE_NUMBER: return add_number(data, next_word(reading), "the code number", 255, 1);
    case PART_OLD_CODE: return add_hex(data, next_word(reading), "the old code");
    case PART_NEW_CODE: return add_hex(data, next_word(reading), "the new code");
    case PART_ADDRESS: return add_address(data, next_word(reading));
    case PART_DATA: return add_data(data, reading);
    default: data->bytes[data->length++] = given.code; return true;
    }
}

/* A request that stores has its count by its bytes. */
static bool data_in(const struct command *command, struct reading *reading, struct data *data) {
    const char *count = strchr(command->parts, PART_DATA) == NULL ? NULL : strchr(command->parts, PART_COUNT);
    data->length = 0;
    for (const char *part = command->parts; *part != '\0'; part++) {
        if (part == count)
            data->bytes[data->length++] = 0;
        else if (!add_part(data, *part, reading))
            return false;
    }
    if (count != NULL)
        data->bytes[count - command->parts] = (uint8_t)(data->length - strlen(command->parts) + 1);
    const char *word = next_word(reading);
    if (word != NULL)
        return complain("%s takes no more than that: '%s'", command->name, word);
    return given.text == NULL || count != NULL || complain("--text is for store-field");
}

/* ---- one request ---------------------------------------------------------------------------------------------------------------------------------------- */

static struct exchange exchange;

static bool is_done(uint32_t verdict) {
    return verdict <= QS_VERDICT_DONE_WITH_WARNING;
}

static void tell_bytes(void) {
    printf("> ");
    print_hex(exchange.request, exchange.request_length);
    printf("\n");
    if (exchange.reply_length == 0)
        return;
    printf("< ");
    print_hex(exchange.reply, exchange.reply_length);
    printf("\n");
}

static void tell_warning(uint32_t verdict) {
    if (QS_VERDICT_WARNS(verdict))
        printf("warning: a fault code waits on the board\n");
}

static void tell_answer(const struct command *command, uint32_t verdict) {
    uint64_t length;
    const uint8_t *data = master_data(&exchange, &length);
    if (is_done(verdict))
        print_data(command->byte, data, length);
    else
        print_failure(&exchange, verdict);
    printf("\n");
    tell_warning(verdict);
}

static enum status ask(const struct command *command, const struct data *data) {
    uint32_t verdict = master_ask(&exchange, command->byte, data->bytes, data->length);
    enum status status = master_status(&exchange, verdict);
    if (status == ENDED_PORT)
        return status;
    if (given.raw)
        tell_bytes();
    /* 53h is followed by silence: that is all that can be told of it. */
    else if (command->byte == QS_RESET && status == ENDED_SILENCE)
        printf("sent; 53h has no reply\n");
    else
        tell_answer(command, verdict);
    return command->byte == QS_RESET && status == ENDED_SILENCE ? ENDED_DONE : status;
}

/* ---- the survey ----------------------------------------------------------------------------------------------------------------------------------------- */

/* One request of the survey, its answer told without a line's end: the data in words, or what was asked and why there is none. Returns ENDED_DONE also for an
 * error code, which is an answer. */
static enum status surveyed(const char *what, uint8_t command, const uint8_t *data, uint64_t length, uint32_t *verdict) {
    uint64_t replied;
    *verdict = master_ask(&exchange, command, data, length);
    enum status status = master_status(&exchange, *verdict);
    if (status == ENDED_PORT)
        return status;
    const uint8_t *told = master_data(&exchange, &replied);
    if (!is_done(*verdict)) {
        printf("%s: ", what);
        print_failure(&exchange, *verdict);
    } else if (command == QS_READ_DATA)
        print_bytes(told + 3, replied - 3, told[1]);
    else
        print_data(command, told, replied);
    return status == ENDED_ERROR_CODE ? ENDED_DONE : status;
}

static enum status surveyed_line(const char *what, uint8_t command, uint32_t *verdict) {
    enum status status = surveyed(what, command, NULL, 0, verdict);
    if (status != ENDED_PORT)
        printf("\n");
    return status;
}

/* A field's status, and its bytes with the code that the status names. */
static enum status survey_field(uint8_t field) {
    char what[16];
    uint32_t verdict;
    uint64_t length;
    snprintf(what, sizeof what, "field %u", field);
    enum status status = surveyed(what, QS_FIELD_STATUS, &field, 1, &verdict);
    if (status == ENDED_DONE && is_done(verdict)) {
        uint8_t stored = master_data(&exchange, &length)[1];
        const uint8_t whole[] = {field, 0, (uint8_t)(blocks_of(stored) * QS_BLOCK), given.codes[(stored & QS_STATUS_CODE_NUMBER) >> 4]};
        status = surveyed("\n    bytes", QS_READ_DATA, whole, sizeof whole, &verdict);
    }
    printf("\n");
    return status;
}

static enum status survey_memory(void) {
    uint32_t verdict;
    uint64_t length;
    enum status status = surveyed_line("memory", QS_MEMORY_STATUS, &verdict);
    if (status != ENDED_DONE || !is_done(verdict))
        return status;
    uint8_t fields = master_data(&exchange, &length)[1];
    for (unsigned field = 0; field < fields && status == ENDED_DONE; field++)
        status = survey_field((uint8_t)field);
    return status;
}

/* The waiting codes, oldest first: each reading removes one, and the warning says whether more wait. A board keeps four; one that never stops is given up. */
static enum status survey_faults(void) {
    enum { MOST_FAULTS = 16 };
    uint32_t verdict = QS_VERDICT_DONE_WITH_WARNING;
    enum status status = ENDED_DONE;
    for (unsigned i = 0; i < MOST_FAULTS && status == ENDED_DONE && verdict == QS_VERDICT_DONE_WITH_WARNING; i++)
        status = surveyed_line("faults", QS_READ_STATUS, &verdict);
    return status;
}

static enum status survey(void) {
    static const struct {
        const char *what;
        uint8_t command;
    } first[] = {{"type label", QS_READ_TYPE_LABEL}, {"version", QS_READ_VERSION}, {"position", QS_READ_POSITION}, {"counter", QS_READ_COUNTER}};
    uint32_t verdict;
    enum status status = ENDED_DONE;
    for (unsigned i = 0; i < PLACES(first) && status == ENDED_DONE; i++)
        status = surveyed_line(first[i].what, first[i].command, &verdict);
    if (status == ENDED_DONE)
        status = survey_memory();
    return status == ENDED_DONE ? survey_faults() : status;
}

/* ---- the program ---------------------------------------------------------------------------------------------------------------------------------------- */

/* What the bench would not write is told before the port is opened. */
static bool is_written(const struct command *command, const struct data *data) {
    uint64_t length = qs_request(asked_address, command->byte, data->bytes, data->length, exchange.request, sizeof exchange.request);
    return !QS_IS_REFUSED(length) || complain("%s: no such request: a count is 1 to 128, a code number 0 to 3", command->name);
}

static enum status run(const struct words *words) {
    struct data data = {.length = 0};
    struct reading reading = {.words = words, .next = 2};
    bool is_survey = strcmp(words->word[1], "survey") == 0;
    const struct command *command = command_named(words->word[1]);
    if (command == NULL && !is_survey) {
        complain("there is no request '%s'; --help lists them", words->word[1]);
        return ENDED_COMMAND_LINE;
    }
    if (is_survey && (words->number > 2 || given.raw || given.text != NULL)) {
        complain("a survey takes no arguments, no --raw and no --text");
        return ENDED_COMMAND_LINE;
    }
    if (!is_survey && (!data_in(command, &reading, &data) || !is_written(command, &data)))
        return ENDED_COMMAND_LINE;
    if (!master_open(words->word[0]))
        return ENDED_PORT;
    enum status status = is_survey ? survey() : ask(command, &data);
    master_close();
    return status;
}

static bool is_use(const struct words *words) {
    return words->number >= 2;
}

static const struct tool BENCH = {
    .help = HELP, .options = OPTIONS, .number_of_options = PLACES(OPTIONS), .is_use = is_use, .wants = "wants a port and a request; --help lists them", .run = run};

int main(int argc, char **argv) {
    return tool_main(argc, argv, &BENCH);
}
