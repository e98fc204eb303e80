/* Commands, codes, statuses and verdicts in words: see words.h. */
#include "words.h"

#include <inttypes.h>
#include <stdio.h>
#include <string.h>

/* ---- commands ------------------------------------------------------------------------------------------------------------------------------------------- */

const struct command COMMANDS[] = {
    {QS_READ_POSITION, "read-position", NULL, "", 10},
    {QS_SET_POSITION, "set-position", NULL, "PC", 40},
    {QS_READ_COUNTER, "read-counter", NULL, "", 5},
    {QS_INCREMENT_COUNTER, "increment-counter", NULL, "", 30},
    {QS_RESET_COUNTER, "reset-counter", NULL, "C", 30},
    {QS_READ_DATA, "read-data", "read-field", "FONC", 30},
    {QS_STORE_DATA, "store-data", "store-field", "FONCD", 250},
    {QS_FIELD_STATUS, "data-field-status", "field-status", "F", 5},
    {QS_CREATE_FIELD, "create-data-field", "create-field", "FSC", 70},
    {QS_MEMORY_STATUS, "memory-status", NULL, "", 5},
    {QS_SET_ACCESS_CODE, "set-access-code", NULL, "Kon", 40},
    {QS_READ_STATUS, "read-encoder-status", NULL, "", 5},
    {QS_READ_TYPE_LABEL, "read-type-label", NULL, "", 5},
    {QS_RESET, "encoder-reset", NULL, "", 5}, /* no reply but an error reply, and that at once */
    {QS_SET_ADDRESS, "set-encoder-address", NULL, "AC", 40},
    {QS_READ_VERSION, "read-version", NULL, "", 5},
};

const unsigned NUMBER_OF_COMMANDS = PLACES(COMMANDS);

const struct command *command_named(const char *name) {
    for (unsigned i = 0; i < PLACES(COMMANDS); i++)
        if (strcmp(COMMANDS[i].name, name) == 0 || (COMMANDS[i].also != NULL && strcmp(COMMANDS[i].also, name) == 0))
            return &COMMANDS[i];
    return NULL;
}

const struct command *command_of(uint8_t byte) {
    for (unsigned i = 0; i < PLACES(COMMANDS); i++)
        if (COMMANDS[i].byte == byte)
            return &COMMANDS[i];
    return NULL;
}

/* ---- codes ---------------------------------------------------------------------------------------------------------------------------------------------- */

struct code {
    const char *name;     /* 000's, in our words */
    const char *answered; /* what it means where a board answers with it; NULL for a code that is only noted */
};

static const struct code CODES[] = {
    [0x01] = {"alignment or analog signals wrong", NULL},
    [QS_ERROR_POSITION_LOCKED] = {"angular offset wrong", "the position is locked"},
    [QS_ERROR_TABLE_UNSOUND] = {"field table destroyed", "the status table is unsound"},
    [0x04] = {"analog limits missing", NULL},
    [0x05] = {"internal bus down", NULL},
    [0x06] = {"internal checksum error", NULL},
    [0x07] = {"watchdog fault", NULL},
    [QS_ERROR_COUNTER_OVERFLOW] = {"counter overflow", NULL},
    [QS_ERROR_PARITY] = {"parity error", "a character had a parity fault"},
    [QS_ERROR_CHECKSUM] = {"checksum error", "the frame's last byte is not its checksum"},
    [QS_ERROR_UNKNOWN_COMMAND] = {"unknown command", "the board does not have this command"},
    [QS_ERROR_WRONG_LENGTH] = {"wrong command length", "frame or data of the wrong length"},
    [QS_ERROR_WRONG_ARGUMENT] = {"wrong argument", "an argument out of range"},
    [QS_ERROR_READ_ONLY] = {"read-only field", "the field may not be written"},
    [QS_ERROR_WRONG_CODE] = {"wrong access code", "not the code that is wanted"},
    [QS_ERROR_NO_ROOM] = {"out of memory", "the blocks are not there, or the field is not the last"},
    [QS_ERROR_BEYOND_FIELD] = {"wrong field offset", "offset + count exceeds the field"},
    [QS_ERROR_NO_FIELD] = {"wrong field number", "no such field"},
    [0x1C] = {"analog signals beyond limits", NULL},
    [0x1D] = {"transmitter current critical", NULL},
    [0x1E] = {"temperature critical", NULL},
    [0x1F] = {"speed too high", NULL},
    [0x20] = {"singleturn position or adjustment unsure", NULL},
    [0x21] = {"multiturn amplitude or sensor distance wrong", NULL},
    [QS_FAULT_LOCKS_A] = {"multiturn sync fault", NULL},
    [0x23] = {"multiturn vector or linear position wrong", NULL},
    [QS_FAULT_LOCKS_B] = {"multiturn counter fault", NULL},
};

/* Which argument 0Dh speaks of. */
static const char *wrong_argument(uint8_t command) {
    switch (command) {
    case QS_SET_POSITION: return "the position is beyond the position bits";
    case QS_READ_DATA: return "the count is 0 or over 128";
    case QS_CREATE_FIELD: return "a deletion whose bits 0 to 6 are not those of the stored status";
    case QS_SET_ACCESS_CODE: return "the code number is over 3";
    case QS_SET_ADDRESS: return "the new address byte is not 40h to 5Fh";
    default: return CODES[QS_ERROR_WRONG_ARGUMENT].answered;
    }
}

static bool has_name(uint8_t code) {
    return code < PLACES(CODES) && CODES[code].name != NULL;
}

void print_code(uint8_t code) {
    if (has_name(code))
        printf("%02Xh %s", code, CODES[code].name);
    else
        printf("%02Xh, a code without a name", code);
}

void print_error(uint8_t code, uint8_t command) {
    const char *answered = !has_name(code) ? NULL : code == QS_ERROR_WRONG_ARGUMENT ? wrong_argument(command) : CODES[code].answered;
    print_code(code);
    if (answered != NULL)
        printf(" (%s)", answered);
}

const char *refusal_words(unsigned number) {
    static const char *const words[] = {
        "the request is none that the bench writes",
        "no reply came, or a scrap of one",
        "the reply's checksum is wrong",
        "the reply comes from another address",
        "the reply answers another command",
        "the reply is not as long as it should be",
        "the reply names another field, offset, count, code number or status",
    };
    return words[number < PLACES(words) ? number : 0];
}

/* ---- data ----------------------------------------------------------------------------------------------------------------------------------------------- */

unsigned blocks_of(uint8_t status) {
    return (status & QS_STATUS_BLOCKS) + 1u;
}

void print_counted(unsigned number, const char *what) {
    printf("%u %s%s", number, what, number == 1 ? "" : "s");
}

void print_status(uint8_t status) {
    printf("status %02Xh (%s, %s, %s, code number %d, ", status, status & QS_STATUS_EXISTS ? "exists" : "does not exist",
           status & QS_STATUS_WRITE_ENABLED ? "write-enabled" : "read-only", status & QS_STATUS_CODE_WANTED ? "code wanted" : "no code wanted",
           (status & QS_STATUS_CODE_NUMBER) >> 4);
    print_counted(blocks_of(status), "block");
    printf(")");
}

static bool is_printable(uint8_t byte) {
    return byte >= 32 && byte < 127;
}

void print_bytes(const uint8_t *bytes, uint64_t length, unsigned first) {
    for (uint64_t start = 0; start < length; start += QS_BLOCK) {
        uint64_t number = length - start < QS_BLOCK ? length - start : QS_BLOCK;
        printf("\n    %3u  ", first + (unsigned)start);
        print_hex(bytes + start, number);
        printf("%*s", (int)(3 * (QS_BLOCK - number) + 2), "");
        for (uint64_t i = start; i < start + number; i++)
            putchar(is_printable(bytes[i]) ? bytes[i] : '.');
    }
}

/* Text in quotation marks where all of it is printable, else in hex; the 00h at its end are left out. */
static void print_text(const char *what, const uint8_t *text, uint64_t length) {
    bool printable = true;
    while (length > 0 && text[length - 1] == 0)
        length--;
    for (uint64_t i = 0; i < length; i++)
        printable = printable && is_printable(text[i]) && text[i] != '"';
    printf("%s ", what);
    if (printable)
        printf("\"%.*s\"", (int)length, (const char *)text);
    else
        print_hex(text, length);
}

/* The type label's first byte (000, table 28). */
static void print_interface(uint8_t settings) {
    static const unsigned rates[] = {600, 1200, 2400, 4800, 9600, 19200, 38400};
    static const char *const parities[] = {"no parity", "a parity without a meaning", "even parity", "odd parity"};
    unsigned rate = settings & 7;
    printf("interface %02Xh (", settings);
    if (rate < PLACES(rates))
        printf("%u baud", rates[rate]);
    else
        printf("a data rate without a meaning");
    printf(", 8 data bits, %s, timeout %d bit times, %s)", parities[settings >> 4 & 3], settings & 0x40 ? 55 : 22,
           settings & 0x80 ? "standard slave" : "bus slave");
}

static void print_type_label(const uint8_t *data) {
    print_interface(data[0]);
    printf(", encoder type %02Xh%s, memory size %d blocks (%d bytes), option code %02Xh", data[1],
           data[1] == 0xFF ? " (there is an extended type label)" : "", data[2], data[2] * QS_BLOCK, data[3]);
}

static void print_version(const uint8_t *data) {
    enum { SERIAL = QS_LABEL_SERIAL_SIZE, VERSION = QS_LABEL_VERSION_SIZE };
    print_text("serial number", data, SERIAL);
    print_text(", version", data + SERIAL, VERSION);
    print_text(", date", data + SERIAL + VERSION, QS_LABEL_DATE_SIZE);
}

static uint32_t big_endian(const uint8_t *data, unsigned length) {
    uint32_t number = 0;
    for (unsigned i = 0; i < length; i++)
        number = number << 8 | data[i];
    return number;
}

/* Lengths are the command's own: the bench has judged the reply. */
void print_data(uint8_t command, const uint8_t *data, uint64_t length) {
    switch (command) {
    case QS_READ_POSITION: printf("position %" PRIu32, big_endian(data, 4)); break;
    case QS_READ_COUNTER: printf("counter %" PRIu32, big_endian(data, 3)); break;
    case QS_READ_DATA:
        printf("field %u, offset %u, count %u", data[0], data[1], data[2]);
        print_bytes(data + 3, length - 3, data[1]);
        break;
    case QS_STORE_DATA: printf("field %u, offset %u, count %u", data[0], data[1], data[2]); break;
    case QS_FIELD_STATUS:
    case QS_CREATE_FIELD:
        printf("field %u, ", data[0]);
        print_status(data[1]);
        break;
    case QS_MEMORY_STATUS: printf("free blocks %u, fields %u", data[0], data[1]); break;
    case QS_SET_ACCESS_CODE: printf("code number %u", data[0]); break;
    case QS_READ_STATUS:
        printf(data[0] == 0 ? "no code waits" : "oldest waiting code ");
        if (data[0] != 0)
            print_code(data[0]);
        break;
    case QS_READ_TYPE_LABEL: print_type_label(data); break;
    case QS_READ_VERSION: print_version(data); break;
    default: printf("done");
    }
}
