/* Labels for the programmer: see label.h. The text's grammar and the words about a bad line are those of tools/label.py. */
#define _XOPEN_SOURCE 700
#include "label.h"

#include <errno.h>
#include <fcntl.h>
#include <inttypes.h>
#include <string.h>
#include <sys/stat.h>
#include <unistd.h>

/* ---- tapes ---------------------------------------------------------------------------------------------------------------------------------------------- */

enum { CODES_KIND = 0x20, FIELD_KIND = 0x21, CODES_PLACE = 4, WITH_BIT_7 = 0x80, BLOCKS_BITS = 0x07 };

static uint8_t *add_record(struct tape *tape, uint8_t kind, unsigned body) {
    uint8_t *record = tape->bytes + tape->length;
    memset(record, 0, 4 + body);
    record[0] = (uint8_t)(2 + body); /* at most 131, so that the high byte is 0 */
    record[2] = kind;
    tape->length += 4 + body;
    return record + 4;
}

static unsigned size_of(uint8_t status) {
    return ((status & BLOCKS_BITS) + 1u) * BLOCK;
}

void tape_start(struct tape *tape, const uint8_t *codes) {
    tape->length = 0;
    tape->fields = tape->blocks = 0;
    memcpy(add_record(tape, CODES_KIND, NUMBER_OF_CODES), codes, NUMBER_OF_CODES);
}

uint8_t *tape_add_field(struct tape *tape, uint8_t status) {
    if (tape->fields == MOST_FIELDS)
        return NULL;
    uint8_t *body = add_record(tape, FIELD_KIND, 1 + size_of(status));
    body[0] = status;
    tape->fields++;
    tape->blocks += size_of(status) / BLOCK;
    return body + 1;
}

const uint8_t *tape_codes(const struct tape *tape) {
    return tape->bytes + CODES_PLACE;
}

/* What a good tape needs. */
static void count_fields(struct tape *tape) {
    tape->fields = tape->blocks = 0;
    for (uint64_t place = 4 + NUMBER_OF_CODES; place < tape->length; place += 2 + tape->bytes[place]) {
        tape->fields++;
        tape->blocks += size_of(tape->bytes[place + 4]) / BLOCK;
    }
}

static bool tape_in(const char *name, const uint8_t *bytes, uint64_t length, struct tape *tape) {
    if (length > LONGEST_TAPE)
        return complain("%s: over %d bytes, which is more than any label tape has", name, LONGEST_TAPE);
    uint64_t refusal = qp_check(bytes, length);
    if (QP_IS_REFUSED(refusal) && QP_REFUSAL(refusal) == QP_WRONG_SIZE)
        return complain("%s: wrong size at place %" PRIu32 ": the field's bytes are not as many as its status says", name, QP_PLACE(refusal));
    if (QP_IS_REFUSED(refusal))
        return complain("%s: bad record at place %" PRIu32 ": cut short, an unknown kind, codes missing or twice, no bit 7, or a 257th field", name,
                        QP_PLACE(refusal));
    memcpy(tape->bytes, bytes, length);
    tape->length = length;
    count_fields(tape);
    return true;
}

/* ---- pieces of text ------------------------------------------------------------------------------------------------------------------------------------- */

struct text {
    const char *at, *end;
};

/* How much of a text a complaint shows. */
#define SHOWN(text) (int)((text).end - (text).at > 120 ? 120 : (text).end - (text).at), (text).at

static bool is_blank(char letter) {
    return letter == ' ' || letter == '\t';
}

static bool is_gap(char letter) {
    return is_blank(letter) || letter == ',';
}

static struct text trimmed(struct text text) {
    while (text.at < text.end && is_blank(*text.at))
        text.at++;
    while (text.at < text.end && is_blank(text.end[-1]))
        text.end--;
    return text;
}

static bool is_word(struct text text, const char *word) {
    return (size_t)(text.end - text.at) == strlen(word) && memcmp(text.at, word, strlen(word)) == 0;
}

/* The next line of a file, without its comment. A # inside quotation marks begins none; a quotation mark behind a backslash is none. */
static struct text next_line(struct text *rest) {
    struct text line = {rest->at, rest->at};
    bool quoted = false, escaped = false, comment = false;
    for (; rest->at < rest->end && *rest->at != '\n' && *rest->at != '\r'; rest->at++) {
        char letter = *rest->at;
        quoted ^= letter == '"' && !escaped;
        comment |= letter == '#' && !quoted;
        escaped = letter == '\\' && !escaped;
        line.end = comment ? line.end : rest->at + 1;
    }
    if (rest->end - rest->at >= 2 && rest->at[0] == '\r' && rest->at[1] == '\n')
        rest->at++;
    if (rest->at < rest->end)
        rest->at++;
    return trimmed(line);
}

/* The first word of a line; the line becomes what stands behind it. */
static struct text first_word(struct text *line) {
    struct text word = {line->at, line->at};
    while (word.end < line->end && !is_blank(*word.end))
        word.end++;
    line->at = word.end;
    *line = trimmed(*line);
    return word;
}

/* ---- reading a text ------------------------------------------------------------------------------------------------------------------------------------- */

struct reader {
    const char *name;
    unsigned line_number;
    struct tape *tape;
    bool has_codes;
    uint8_t *content; /* of the last field */
    unsigned size;    /* of it */
    uint64_t filled;
};

#define BAD_LINE(reader, form, ...) complain("%s: line %u: " form, (reader)->name, (reader)->line_number, __VA_ARGS__)

/* Bytes of a line: those that a field can hold, and how many the line says. */
struct bytes {
    uint8_t first[LARGEST_FIELD];
    uint64_t number;
};

static void add_byte(struct bytes *bytes, uint8_t byte) {
    if (bytes->number < sizeof bytes->first)
        bytes->first[bytes->number] = byte;
    bytes->number++;
}

/* How many digits, of at most this base, stand there. */
static unsigned digits_at(struct text text, int base) {
    unsigned number = 0;
    while (text.at + number < text.end && hex_value(text.at[number]) >= 0 && hex_value(text.at[number]) < base)
        number++;
    return number;
}

/* The hex digits of a word, 40, 4E4F, 0x4 or 40h; what stands behind them is left. False if it is none. */
static bool digits_in(struct text *word, struct text *digits) {
    bool marked = word->end - word->at > 2 && word->at[0] == '0' && (word->at[1] == 'x' || word->at[1] == 'X');
    digits->at = word->at + (marked ? 2 : 0);
    unsigned number = digits_at((struct text){digits->at, word->end}, 16);
    digits->end = word->at = digits->at + number;
    if (!marked && word->at < word->end && (*word->at == 'h' || *word->at == 'H'))
        word->at++;
    return number > 0 && (number % 2 == 0 || (marked && number == 1));
}

enum { MOST_TIMES = 100000, LONGEST_NUMBER = 20 };

/* How often a word is said, by *N behind it. */
static bool times_in(const struct reader *reader, struct text digits, uint64_t *times) {
    static const char what[] = "a byte's number of times";
    struct text number = digits;
    while (number.end - number.at > 1 && *number.at == '0')
        number.at++;
    if (number.end - number.at > LONGEST_NUMBER)
        return BAD_LINE(reader, "%s of %d digits is over %d", what, (int)(number.end - number.at), MOST_TIMES);
    *times = 0;
    for (const char *digit = number.at; digit < number.end && *times <= MOST_TIMES; digit++)
        *times = *times * 10 + (uint64_t)(*digit - '0');
    return *times <= MOST_TIMES || BAD_LINE(reader, "%s %.*s is over %d", what, SHOWN(digits), MOST_TIMES);
}

static bool is_times(struct text rest, unsigned *number) {
    if (rest.at == rest.end || *rest.at != '*')
        return false;
    *number = digits_at((struct text){rest.at + 1, rest.end}, 10);
    return *number > 0;
}

/* The bytes of hex digits, so many times; what no field can hold is only counted. */
static void add_digits(struct bytes *bytes, struct text digits, uint64_t times) {
    bool is_lone = digits.end - digits.at == 1;
    uint64_t pairs = is_lone ? 1 : (uint64_t)(digits.end - digits.at) / 2;
    uint64_t number = pairs * times;
    for (uint64_t i = 0; i < number && bytes->number + i < sizeof bytes->first; i++) {
        const char *pair = digits.at + 2 * (i % pairs);
        bytes->first[bytes->number + i] = (uint8_t)(is_lone ? hex_value(pair[0]) : hex_value(pair[0]) * 16 + hex_value(pair[1]));
    }
    bytes->number += number;
}

/* A list of bytes in hex, with blanks or commas between them. */
static bool hex_list_in(const struct reader *reader, struct text said, struct bytes *bytes) {
    bytes->number = 0;
    for (;;) {
        struct text digits;
        uint64_t times = 1;
        unsigned number;
        while (said.at < said.end && is_gap(*said.at))
            said.at++;
        if (said.at == said.end)
            return true;
        struct text rest = said;
        bool good = digits_in(&rest, &digits);
        bool has_times = good && is_times(rest, &number);
        struct text said_times = {rest.at + 1, rest.at + 1 + (has_times ? number : 0)};
        rest.at = has_times ? said_times.end : rest.at;
        if (!good || (rest.at < rest.end && !is_gap(*rest.at)))
            return BAD_LINE(reader, "no byte in hex: %.*s", SHOWN(trimmed(said)));
        if (has_times && !times_in(reader, said_times, &times))
            return false;
        add_digits(bytes, digits, times);
        said = rest;
    }
}

/* Where a text in quotation marks ends; NULL if it does not. */
static const char *end_of_quoted(struct text said) {
    for (const char *at = said.at + 1; at < said.end; at++) {
        if (*at == '"')
            return at;
        at += *at == '\\';
    }
    return NULL;
}

/* One letter of a quoted text, which begins at `at`; at most `end`. Returns where the next one begins; NULL for a letter that is none, which it complains about. */
static const char *letter_in(const struct reader *reader, const char *at, const char *end, struct bytes *bytes) {
    if (at[0] == '\\' && (at[1] == '"' || at[1] == '\\')) {
        add_byte(bytes, (uint8_t)at[1]);
        return at + 2;
    }
    if (at[0] == '\\' && at[1] == 'x' && end - at >= 4 && hex_value(at[2]) >= 0 && hex_value(at[3]) >= 0) {
        add_byte(bytes, (uint8_t)(hex_value(at[2]) * 16 + hex_value(at[3])));
        return at + 4;
    }
    if (at[0] == '\\') {
        BAD_LINE(reader, "\\%c is no letter; there are \\\" and \\\\ and \\xNN", at[1]);
        return NULL;
    }
    if (at[0] < ' ' || at[0] > '~') {
        BAD_LINE(reader, "no printable ASCII: byte %02Xh; \\xNN says any byte", (unsigned)(uint8_t)at[0]);
        return NULL;
    }
    add_byte(bytes, (uint8_t)at[0]);
    return at + 1;
}

static bool quoted_in(const struct reader *reader, struct text said, struct bytes *bytes) {
    bytes->number = 0;
    if (said.at == said.end || *said.at != '"')
        return BAD_LINE(reader, "no text in quotation marks: %.*s", SHOWN(said));
    const char *end = end_of_quoted(said);
    if (end == NULL)
        return BAD_LINE(reader, "a text without its end: %.*s", SHOWN(said));
    struct text behind = trimmed((struct text){end + 1, said.end});
    if (behind.at < behind.end)
        return BAD_LINE(reader, "behind the text's end: %.*s", SHOWN(behind));
    const char *at = said.at + 1;
    while (at != NULL && at < end)
        at = letter_in(reader, at, end, bytes);
    return at != NULL;
}

/* ---- lines ---------------------------------------------------------------------------------------------------------------------------------------------- */

static const char SIZES[] = "a field has 1 to 8 blocks, or 16 to 128 bytes in steps of 16";
static const char CODE_NUMBERS[] = "a code number is 0 to 3";
static const char FIELD_WORDS[] =
    "words, with commas between them, are N blocks, N bytes, code N wanted, code number N, code wanted, no code wanted, read-only, write-enabled";

enum { WRITE_ENABLED = 0x40, CODE_NUMBER = 0x30, CODE_WANTED = 0x08 };

/* Of which bits of a status a word speaks, and their value. */
struct said {
    uint8_t bits, value;
};

/* A word with single blanks in it, cut where no word is as long. */
enum { LONGEST_WORD = 63 };

static void single_blanks(struct text text, char *word) {
    unsigned length = 0;
    text = trimmed(text);
    for (const char *at = text.at; at < text.end && length < LONGEST_WORD; at++)
        if (!is_blank(*at) || !is_blank(at[1]))
            word[length++] = is_blank(*at) ? ' ' : *at;
    word[length] = '\0';
}

/* Whether a word is `before`, a number without blanks, `after`; the number as text. */
static bool is_form(const char *word, const char *before, const char *after, char *number) {
    size_t length = strlen(word), front = strlen(before), back = strlen(after);
    if (length <= front + back || strncmp(word, before, front) != 0 || strcmp(word + length - back, after) != 0)
        return false;
    memcpy(number, word + front, length - front - back);
    number[length - front - back] = '\0';
    return strchr(number, ' ') == NULL;
}

/* A number of at most three digits, as people write it: no 0 before it. 0 for another. */
static unsigned small_number(const char *number) {
    unsigned value = 0;
    if (number[0] == '0' || strlen(number) > 3)
        return 0;
    for (; *number >= '0' && *number <= '9'; number++)
        value = value * 10 + (unsigned)(*number - '0');
    return *number == '\0' ? value : 0;
}

/* Whether a word speaks of a matter, and says it well. */
enum sense { SAYS_NOTHING, SAYS, SAYS_WRONG };

static enum sense size_said(const char *word, struct said *said) {
    char number[LONGEST_WORD + 1];
    unsigned blocks = 0;
    if (is_form(word, "", " bytes", number))
        blocks = small_number(number) % BLOCK == 0 ? small_number(number) / BLOCK : 0;
    else if (is_form(word, "", " blocks", number))
        blocks = small_number(number);
    else if (is_form(word, "", " block", number))
        blocks = small_number(number) == 1 ? 1 : 0;
    else if (!is_form(word, "", " byte", number))
        return SAYS_NOTHING;
    if (blocks == 0 || blocks * BLOCK > LARGEST_FIELD)
        return SAYS_WRONG;
    *said = (struct said){BLOCKS_BITS, (uint8_t)(blocks - 1)};
    return SAYS;
}

static enum sense code_said(const char *word, struct said *said) {
    char number[LONGEST_WORD + 1];
    bool is_number = is_form(word, "code number ", "", number);
    if (!is_number && !is_form(word, "code ", " wanted", number))
        return SAYS_NOTHING;
    if (number[0] < '0' || number[0] > '3' || number[1] != '\0')
        return SAYS_WRONG;
    uint8_t named = (uint8_t)((number[0] - '0') << 4);
    *said = is_number ? (struct said){CODE_NUMBER, named} : (struct said){CODE_NUMBER | CODE_WANTED, named | CODE_WANTED};
    return SAYS;
}

static enum sense plainly_said(const char *word, struct said *said) {
    static const struct {
        const char *word;
        struct said said;
    } plain[] = {
        {"write-enabled", {WRITE_ENABLED, WRITE_ENABLED}},
        {"read-only", {WRITE_ENABLED, 0}},
        {"code wanted", {CODE_WANTED, CODE_WANTED}},
        {"no code wanted", {CODE_WANTED, 0}},
    };
    for (unsigned i = 0; i < PLACES(plain); i++)
        if (strcmp(plain[i].word, word) == 0) {
            *said = plain[i].said;
            return SAYS;
        }
    return SAYS_NOTHING;
}

static bool word_said(const struct reader *reader, const char *word, struct said *said) {
    if (plainly_said(word, said) == SAYS)
        return true;
    enum sense of_size = size_said(word, said);
    if (of_size != SAYS_NOTHING)
        return of_size == SAYS || BAD_LINE(reader, "%s: %s", word, SIZES);
    enum sense of_code = code_said(word, said);
    if (of_code != SAYS_NOTHING)
        return of_code == SAYS || BAD_LINE(reader, "%s: %s", word, CODE_NUMBERS);
    return BAD_LINE(reader, "%s: %s", word[0] == '\0' ? "nothing" : word, FIELD_WORDS);
}

/* The status that the words of a field say; left out they are write-enabled, no code wanted, code number 0. */
static bool status_said(const struct reader *reader, struct text said, uint8_t *status) {
    uint8_t spoken = 0;
    *status = WITH_BIT_7 | WRITE_ENABLED;
    for (bool more = true; more;) {
        char word[LONGEST_WORD + 1];
        struct said meant = {0, 0};
        const char *comma = memchr(said.at, ',', (size_t)(said.end - said.at));
        more = comma != NULL;
        single_blanks((struct text){said.at, more ? comma : said.end}, word);
        said.at = more ? comma + 1 : said.end;
        if (!word_said(reader, word, &meant))
            return false;
        if ((spoken & meant.bits) != 0)
            return BAD_LINE(reader, "%s: a word before it speaks of the same", word);
        spoken |= meant.bits;
        *status = (uint8_t)((*status & ~meant.bits) | meant.value);
    }
    return (spoken & BLOCKS_BITS) != 0 || BAD_LINE(reader, "no size: %s", SIZES);
}

static bool take_codes(struct reader *reader, struct text said) {
    struct bytes codes;
    if (reader->has_codes)
        return BAD_LINE(reader, "%s", "a second line of codes");
    if (reader->tape->fields > 0)
        return BAD_LINE(reader, "%s", "the codes come before the fields");
    if (!hex_list_in(reader, said, &codes))
        return false;
    if (codes.number != NUMBER_OF_CODES)
        return BAD_LINE(reader, "%" PRIu64 " code%s, not %d: Code0 to Code3 in hex", codes.number, codes.number == 1 ? "" : "s", NUMBER_OF_CODES);
    reader->has_codes = true;
    memcpy(reader->tape->bytes + CODES_PLACE, codes.first, NUMBER_OF_CODES);
    return true;
}

static bool take_field(struct reader *reader, struct text said) {
    uint8_t status;
    if (reader->tape->fields == MOST_FIELDS)
        return BAD_LINE(reader, "over %d fields: a number is one byte", MOST_FIELDS);
    if (!status_said(reader, said, &status))
        return false;
    reader->content = tape_add_field(reader->tape, status);
    reader->size = size_of(status);
    reader->filled = 0;
    return true;
}

/* Bytes behind those that the last field has. */
static bool fill(struct reader *reader, const struct bytes *bytes) {
    if (reader->tape->fields == 0)
        return BAD_LINE(reader, "%s", "no field stands before it");
    if (bytes->number == 0)
        return BAD_LINE(reader, "%s", "no bytes");
    if (reader->filled + bytes->number > reader->size)
        return BAD_LINE(reader, "too long: %" PRIu64 " bytes for a field of %u", reader->filled + bytes->number, reader->size);
    memcpy(reader->content + reader->filled, bytes->first, bytes->number);
    reader->filled += bytes->number;
    return true;
}

static bool take_line(struct reader *reader, struct text line) {
    struct bytes bytes;
    struct text said = line;
    struct text word = first_word(&said);
    if (is_word(word, "codes"))
        return take_codes(reader, said);
    if (is_word(word, "field"))
        return take_field(reader, said);
    if (is_word(word, "text"))
        return quoted_in(reader, said, &bytes) && fill(reader, &bytes);
    if (is_word(word, "hex"))
        return hex_list_in(reader, said, &bytes) && fill(reader, &bytes);
    return BAD_LINE(reader, "no line of a label starts like this: %.*s", SHOWN(line));
}

/* Whether a line has the codes; else the first line that says anything is where they are missing. */
static bool codes_are_there(struct reader *reader, struct text text) {
    unsigned first = 0;
    for (unsigned number = 1; text.at < text.end; number++) {
        struct text line = next_line(&text);
        if (line.at == line.end)
            continue;
        first = first == 0 ? number : first;
        if (is_word(first_word(&line), "codes"))
            return true;
    }
    reader->line_number = first == 0 ? 1 : first;
    return BAD_LINE(reader, "%s", "the codes are missing: `codes 55 55 55 55` comes first");
}

static bool text_in(const char *name, struct text text, struct tape *tape) {
    static const uint8_t no_codes[NUMBER_OF_CODES];
    struct reader reader = {.name = name, .tape = tape};
    tape_start(tape, no_codes);
    if (!codes_are_there(&reader, text))
        return false;
    while (text.at < text.end) {
        struct text line = next_line(&text);
        reader.line_number++;
        if (line.at < line.end && !take_line(&reader, line))
            return false;
    }
    return true;
}

/* ---- files ---------------------------------------------------------------------------------------------------------------------------------------------- */

enum { LONGEST_FILE = 1 << 18 };

static uint8_t file_bytes[LONGEST_FILE + 1];

/* A serial port is no label, and would be waited for. */
static int open_label(const char *name) {
    struct stat about;
    int fd = open(name, O_RDONLY | O_NONBLOCK | O_NOCTTY);
    if (fd < 0)
        complain("%s: %s", name, strerror(errno));
    else if (fstat(fd, &about) == 0 && S_ISCHR(about.st_mode))
        complain("%s: a device, not a label", name);
    else if (fcntl(fd, F_SETFL, 0) == 0)
        return fd;
    if (fd >= 0)
        (void)close(fd);
    return -1;
}

static bool file_in(const char *name, uint64_t *length) {
    int fd = open_label(name);
    if (fd < 0)
        return false;
    ssize_t more = 1;
    for (*length = 0; more > 0 && *length < sizeof file_bytes; *length += more > 0 ? (uint64_t)more : 0)
        more = read(fd, file_bytes + *length, sizeof file_bytes - *length);
    int reason = errno;
    (void)close(fd);
    if (more < 0)
        return complain("%s: %s", name, strerror(reason));
    return *length <= LONGEST_FILE || complain("%s: over %d bytes, which is more than any label has", name, LONGEST_FILE);
}

static bool begins_with(const char *mark, uint64_t length) {
    return length >= strlen(mark) && memcmp(file_bytes, mark, strlen(mark)) == 0;
}

static bool is_utf_16(uint64_t length) {
    return begins_with("\xFF\xFE", length) || begins_with("\xFE\xFF", length);
}

/* Text has no control characters but tab and line ends; every record of a tape has one. */
static bool is_text(uint64_t length) {
    for (uint64_t i = 0; i < length; i++)
        if (file_bytes[i] < ' ' && file_bytes[i] != '\t' && file_bytes[i] != '\n' && file_bytes[i] != '\r')
            return false;
    return true;
}

bool label_in(const char *name, struct tape *tape) {
    uint64_t length = 0;
    if (!file_in(name, &length))
        return false;
    if (is_utf_16(length))
        return complain("%s: this text is UTF-16; save it as UTF-8", name);
    if (!is_text(length))
        return tape_in(name, file_bytes, length, tape);
    const char *start = (const char *)file_bytes + (begins_with("\xEF\xBB\xBF", length) ? 3 : 0);
    return text_in(name, (struct text){start, (const char *)file_bytes + length}, tape);
}
