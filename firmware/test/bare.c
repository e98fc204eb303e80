/* Runs a C program with standard input and output on an emulated Cortex-M, by semihosting. The emulator's command line names a plan, a file; each of its lines is a run:
 *
 *     INPUT OUTPUT WORD...     files of the emulator's machine for standard input ("-" for none) and output; then the words that main gets, its name first
 *
 * Before each run data and zeroed memory are set anew, and no page is protected. The emulator ends with status 0 if each run did, and else with 1. */
#include <signal.h>
#include <stdarg.h>
#include <stdbool.h>
#include <stdint.h>
#include <stdio.h>
#include <stdlib.h>
#include <string.h>
#include <sys/mman.h>
#include <unistd.h>

/* What outlives a run is not among what is set anew. */
#define LASTS __attribute__((section(".lasts")))
enum { LONGEST_LINE = 1024, MOST_WORDS = 8, BUFFER = 4096 };

int main(int number, char **words);
extern uint8_t ram_data[], ram_data_end[], flash_data[], ram_zero[], ram_zero_end[], heap[], heap_end[], stack_top[];

/* ---- semihosting ---------------------------------------------------------------------------------------------------------------------------------------- */

enum { OPEN = 0x01, CLOSE = 0x02, WRITE0 = 0x04, WRITE = 0x05, READ = 0x06, GET_CMDLINE = 0x15, EXIT_EXTENDED = 0x20, APPLICATION_EXIT = 0x20026 };
enum { READING = 1, WRITING = 5 }; /* "rb", "wb" */

static uint32_t semihost(uint32_t what, const void *with) {
    register uint32_t r0 __asm__("r0") = what;
    register const void *r1 __asm__("r1") = with;
    __asm__ volatile("bkpt 0xAB" : "+r"(r0) : "r"(r1) : "memory");
    return r0;
}

static _Noreturn void leave(uint32_t status) {
    uint32_t block[2] = {APPLICATION_EXIT, status};
    for (;;)
        (void)semihost(EXIT_EXTENDED, block);
}

static _Noreturn void give_up(const char *why) {
    (void)semihost(WRITE0, "bare.c: ");
    (void)semihost(WRITE0, why);
    (void)semihost(WRITE0, "\n");
    leave(99);
}

static uint32_t opened(const char *name, uint32_t how) {
    uint32_t block[3] = {(uint32_t)(uintptr_t)name, how, strlen(name)};
    uint32_t handle = semihost(OPEN, block);
    if (handle == UINT32_MAX)
        give_up(name);
    return handle;
}

static uint32_t read_some(uint32_t handle, void *to, uint32_t number) {
    uint32_t block[3] = {handle, (uint32_t)(uintptr_t)to, number};
    return number - semihost(READ, block);
}

static void close(uint32_t handle) {
    uint32_t block[1] = {handle};
    (void)semihost(CLOSE, block);
}

/* ---- files ---------------------------------------------------------------------------------------------------------------------------------------------- */

struct file {
    uint32_t handle;
    bool is_open;
    uint32_t length;
    char buffer[BUFFER];
};

static LASTS FILE in, out, told;
FILE *const stdin = &in, *const stdout = &out, *const stderr = &told;

int fflush(FILE *file) {
    uint32_t block[3] = {file->handle, (uint32_t)(uintptr_t)file->buffer, file->length};
    file->buffer[file->length] = 0;
    if (file == stderr)
        (void)semihost(WRITE0, file->buffer);
    else if (file->length > 0 && semihost(WRITE, block) != 0)
        give_up("the output cannot be written");
    file->length = 0;
    return 0;
}

int fputc(int c, FILE *file) {
    file->buffer[file->length++] = (char)c;
    if (file->length == BUFFER - 1)
        (void)fflush(file);
    return c;
}

int fputs(const char *text, FILE *file) {
    while (*text)
        (void)fputc(*text++, file);
    return 0;
}

size_t fwrite(const void *from, size_t size, size_t number, FILE *file) {
    const char *at = from;
    for (size_t i = 0; i < size * number; i++)
        (void)fputc(at[i], file);
    return number;
}

size_t fread(void *to, size_t size, size_t number, FILE *file) {
    return file->is_open ? read_some(file->handle, to, size * number) / size : 0;
}

int setvbuf(FILE *file, char *buffer, int mode, size_t size) {
    (void)file, (void)buffer, (void)mode, (void)size;
    return 0;
}

void perror(const char *what) {
    (void)fputs(what, stderr);
    (void)fputs(": failed\n", stderr);
}

/* ---- numbers and texts ---------------------------------------------------------------------------------------------------------------------------------- */

/* Quotient, and the rest: the core has no division of 64 bits. */
static uint64_t divided(uint64_t number, uint64_t by, uint64_t *rest) {
    uint64_t quotient = 0, left = 0;
    for (int bit = 63; bit >= 0; bit--) {
        left = left << 1 | (number >> bit & 1);
        quotient <<= 1;
        if (left >= by) {
            left -= by;
            quotient |= 1;
        }
    }
    *rest = left;
    return quotient;
}

__attribute__((used)) uint64_t divided_for_abi(uint64_t number, uint64_t by, uint64_t *rest) {
    return divided(number, by, rest);
}

/* Arm's name for it; the rest comes back in r2 and r3. */
__attribute__((naked)) void __aeabi_uldivmod(void) {
    __asm__("push {r4, lr}\n\t"
            "sub sp, #16\n\t"
            "add r4, sp, #8\n\t"
            "str r4, [sp]\n\t"
            "bl divided_for_abi\n\t"
            "ldr r2, [sp, #8]\n\t"
            "ldr r3, [sp, #12]\n\t"
            "add sp, #16\n\t"
            "pop {r4, pc}");
}

struct text {
    char *at; /* NULL: the file */
    FILE *file;
    size_t room, length;
};

static void put(struct text *text, char c) {
    if (text->at == NULL)
        (void)fputc(c, text->file);
    else if (text->length + 1 < text->room)
        text->at[text->length] = c;
    text->length++;
}

static void put_number(struct text *text, uint64_t value, uint32_t base, int width) {
    char digits[24];
    int number = 0;
    do {
        uint64_t digit;
        value = divided(value, base, &digit);
        digits[number++] = "0123456789ABCDEF"[digit];
    } while (value != 0 || number < width);
    while (number > 0)
        put(text, digits[--number]);
}

/* Knows %s, %u, %d of no negative number and %X, with l, ll, z and a width that is filled up with 0. */
static int format(struct text *text, const char *form, va_list words) {
    for (; *form; form++) {
        if (*form != '%') {
            put(text, *form);
            continue;
        }
        int width = 0, longs = 0;
        for (form++; *form == 'l' || *form == 'z' || (*form >= '0' && *form <= '9'); form++) {
            longs += *form == 'l';
            if (*form >= '0' && *form <= '9')
                width = *form - '0';
        }
        if (*form == 's')
            for (const char *s = va_arg(words, const char *); *s; s++)
                put(text, *s);
        else if (*form == 'u' || *form == 'X' || *form == 'd')
            put_number(text, longs == 2 ? va_arg(words, uint64_t) : va_arg(words, uint32_t), *form == 'X' ? 16 : 10, width);
        else
            give_up("a form that it does not know");
    }
    return (int)text->length;
}

int fprintf(FILE *file, const char *form, ...) {
    struct text text = {.file = file};
    va_list words;
    va_start(words, form);
    int number = format(&text, form, words);
    va_end(words);
    return number;
}

int snprintf(char *to, size_t room, const char *form, ...) {
    struct text text = {.at = to, .room = room};
    va_list words;
    va_start(words, form);
    int number = format(&text, form, words);
    va_end(words);
    if (room > 0)
        to[text.length < room ? text.length : room - 1] = 0;
    return number;
}

int sprintf(char *to, const char *form, ...) {
    struct text text = {.at = to, .room = SIZE_MAX};
    va_list words;
    va_start(words, form);
    int number = format(&text, form, words);
    va_end(words);
    to[text.length] = 0;
    return number;
}

static int digit_of(char c) {
    if (c >= '0' && c <= '9')
        return c - '0';
    c |= 0x20;
    return c >= 'a' && c <= 'f' ? c - 'a' + 10 : -1;
}

/* A number at a place, of at most so many digits, blanks before it passed over. NULL if there is none. */
static const char *number_in(const char *at, unsigned base, int digits, unsigned *value) {
    *value = 0;
    while (*at == ' ')
        at++;
    if (digit_of(*at) < 0 || digit_of(*at) >= (int)base)
        return NULL;
    for (; digits > 0 && digit_of(*at) >= 0 && digit_of(*at) < (int)base; digits--)
        *value = base * *value + (unsigned)digit_of(*at++);
    return at;
}

/* Knows %x and %u with one digit of width, %n, and words that must be there. */
static int scanned(const char *from, const char *form, va_list words) {
    const char *at = from;
    int found = 0;
    for (; *form; form++) {
        if (*form != '%') {
            if (*at++ != *form)
                return found;
            continue;
        }
        form++;
        int digits = *form >= '1' && *form <= '9' ? *form++ - '0' : 10;
        if (*form == 'n') {
            *va_arg(words, int *) = (int)(at - from);
            continue;
        }
        if (*form != 'x' && *form != 'u')
            give_up("a form that it does not know");
        at = number_in(at, *form == 'x' ? 16 : 10, digits, va_arg(words, unsigned *));
        if (at == NULL)
            return found == 0 ? -1 : found;
        found++;
    }
    return found;
}

int sscanf(const char *from, const char *form, ...) {
    va_list words;
    va_start(words, form);
    int found = scanned(from, form, words);
    va_end(words);
    return found;
}

void *memchr(const void *bytes, int value, size_t number) {
    const uint8_t *at = bytes;
    for (size_t i = 0; i < number; i++)
        if (at[i] == (uint8_t)value)
            return (void *)(uintptr_t)(at + i);
    return NULL;
}

int memcmp(const void *first, const void *second, size_t number) {
    const uint8_t *x = first, *y = second;
    for (size_t i = 0; i < number; i++)
        if (x[i] != y[i])
            return x[i] < y[i] ? -1 : 1;
    return 0;
}

int strcmp(const char *first, const char *second) {
    while (*first && *first == *second)
        first++, second++;
    return (uint8_t)*first - (uint8_t)*second;
}

size_t strlen(const char *text) {
    size_t length = 0;
    while (text[length])
        length++;
    return length;
}

/* ---- memory, all of it back at the end of a run --------------------------------------------------------------------------------------------------------- */

static uint8_t *heap_at; /* NULL at the start of a run */

void *malloc(size_t size) {
    uint8_t *from = heap_at == NULL ? heap : heap_at;
    if (size > (size_t)(heap_end - from))
        return NULL;
    heap_at = from + (size + 7) / 8 * 8;
    return from;
}

/* How long the old one was is not known; what lies behind it is copied too. */
void *realloc(void *before, size_t size) {
    void *made = malloc(size);
    return made == NULL || before == NULL ? made : memmove(made, before, size);
}

/* ---- pages: the memory protection unit, of which each page has a region --------------------------------------------------------------------------------- */

/* A fault, or an instruction that is never to be reached. */
static void fault(void) {
    give_up("a fault");
}

_Noreturn void abort(void) {
    give_up("a program gave up");
}

enum { REGIONS = 8, READ_WRITE = 3u << 24, READ_ONLY = 6u << 24, NOT_RUN = 1u << 28, OF_A_PAGE = 11 << 1, ENABLED = 1, BACKGROUND = 4 };
static volatile uint32_t *const MPU_CONTROL = (uint32_t *)0xE000ED94, *const MPU_REGION = (uint32_t *)0xE000ED98, *const MPU_PLACE = (uint32_t *)0xE000ED9C,
                                *const MPU_KIND = (uint32_t *)0xE000EDA0, *const FAULTS_ON = (uint32_t *)0xE000ED24, *const FAULTS = (uint32_t *)0xE000ED28,
                                *const FAULT_PLACE = (uint32_t *)0xE000ED34;
enum { PAGE_FAULT_ON = 1 << 16, PLACE_IS_TOLD = 1 << 7 };

static void (*page_fault_action)(int number, siginfo_t *info, void *context);

void *mmap(void *at, size_t length, int access, int how, int fd, int from) {
    (void)at, (void)access, (void)how, (void)fd, (void)from;
    uintptr_t made = length > SIZE_MAX - PAGE_LENGTH ? 0 : (uintptr_t)malloc(length + PAGE_LENGTH);
    return made == 0 ? MAP_FAILED : (void *)((made + PAGE_LENGTH - 1) / PAGE_LENGTH * PAGE_LENGTH);
}

int mprotect(void *at, size_t length, int access) {
    uintptr_t place = (uintptr_t)at;
    for (uintptr_t page = place; page < place + length; page += PAGE_LENGTH) {
        *MPU_REGION = page / PAGE_LENGTH % REGIONS;
        *MPU_KIND = 0;
        *MPU_PLACE = page;
        *MPU_KIND = NOT_RUN | ((access & PROT_WRITE) != 0 ? READ_WRITE : (access & PROT_READ) != 0 ? READ_ONLY : 0) | OF_A_PAGE | ENABLED;
    }
    *MPU_CONTROL = BACKGROUND | ENABLED;
    *FAULTS_ON |= PAGE_FAULT_ON;
    __asm__ volatile("dsb\n isb" ::: "memory");
    return 0;
}

int sigaction(int number, const struct sigaction *action, struct sigaction *before) {
    (void)number, (void)before;
    page_fault_action = action->sa_sigaction;
    return 0;
}

void (*signal(int number, void (*action)(int)))(int) {
    (void)number, (void)action;
    page_fault_action = NULL;
    return SIG_DFL;
}

/* The program's action is taken, and the access tried again. */
static void page_fault(void) {
    siginfo_t info = {(void *)*FAULT_PLACE};
    if (page_fault_action == NULL || (*FAULTS & PLACE_IS_TOLD) == 0)
        fault();
    *FAULTS = *FAULTS;
    page_fault_action(SIGSEGV, &info, NULL);
}

/* ---- runs ----------------------------------------------------------------------------------------------------------------------------------------------- */

static LASTS uint32_t plan, failures;
static LASTS char line[LONGEST_LINE];

_Noreturn void exit(int status) {
    (void)fflush(stdout);
    (void)fflush(stderr);
    leave((uint32_t)status);
}

static bool has_line(void) {
    size_t length = 0;
    char c;
    while (read_some(plan, &c, 1) == 1) {
        if (c == '\n') {
            line[length] = 0;
            return true;
        }
        if (length + 1 == sizeof line)
            give_up("a line of the plan is too long");
        line[length++] = c;
    }
    return false;
}

/* The words of the line, in its place. */
static int words_in(char **words) {
    int number = 0;
    for (char *at = line; *at != 0;) {
        if (number == MOST_WORDS)
            give_up("a line of the plan has too many words");
        words[number++] = at;
        while (*at != 0 && *at != ' ')
            at++;
        if (*at == ' ')
            *at++ = 0;
    }
    return number;
}

static void run_line(void) {
    char *words[MOST_WORDS + 1] = {NULL};
    int number = words_in(words);
    if (number < 3)
        give_up("a line of the plan has too few words");
    memcpy(ram_data, flash_data, (size_t)(ram_data_end - ram_data));
    memset(ram_zero, 0, (size_t)(ram_zero_end - ram_zero));
    *MPU_CONTROL = 0;
    in.is_open = strcmp(words[0], "-") != 0;
    in.handle = in.is_open ? opened(words[0], READING) : 0;
    out.handle = opened(words[1], WRITING);
    failures += main(number - 2, words + 2) != 0;
    (void)fflush(stdout);
    (void)fflush(stderr);
    close(out.handle);
    if (in.is_open)
        close(in.handle);
}

/* Some firmwares let every access to an odd place be a fault. */
static void trap_unaligned(void) {
#ifdef TRAP_UNALIGNED
    *(volatile uint32_t *)0xE000ED14 |= 1u << 3;
#endif
}

static void start(void) {
    uint32_t block[2] = {(uint32_t)(uintptr_t)line, sizeof line};
    trap_unaligned();
    in.length = out.length = told.length = failures = 0;
    if (semihost(GET_CMDLINE, block) != 0)
        give_up("no plan");
    plan = opened(line, READING);
    while (has_line())
        run_line();
    leave(failures != 0);
}

typedef void (*vector)(void);
__attribute__((section(".vectors"), used)) static const vector VECTORS[16] = {(vector)(void *)stack_top, start, fault, fault, page_fault, [5 ... 15] = fault};
