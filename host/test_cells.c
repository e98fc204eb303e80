/* Which cells of memory the library writes: 02, Req 05. Memory is lent in pages that are read-only, so that the first write to a page is seen; where the border
 * between two pages lies is chosen anew for each request. Prints what failed, ends in 1 if any did. What replies and memory must be is test.c's. */
#define _DEFAULT_SOURCE
#define PROGRAM "test_cells.c"
#include "testing.h"

#include <signal.h>
#include <stdlib.h>
#include <sys/mman.h>
#include <unistd.h>

enum { LARGEST = 112, CODE = 0x55, WRONG = 0x56, MOST = 128, MOST_BLOCKS = 8 };
enum { ONE_BLOCK = 0xC0, READ_ONLY = 0x80, CODE_WANTED = 0x08 }; /* statuses of fields of one block, and a bit */

/* ---- pages ------------------------------------------------------------------------------------------------------------------------------------------------ */

/* Memory lies over the border between the two pages. */
enum { PAGES = 2 };
static uint8_t *pages, *memory;
static size_t page_length, memory_length;

/* The first write that was seen in each page since they were made read-only, or NULL. From it on that page can be written. */
static uint8_t *volatile written[PAGES];

static void protect(size_t page, int how) {
    if (mprotect(pages + page * page_length, page_length, how) != 0)
        abort();
}

/* A fault elsewhere is a fault of this program: it comes again, and ends it. */
static void on_fault(int signal_number, siginfo_t *info, void *context) {
    uint8_t *place = info->si_addr;
    (void)context;
    if (place < pages || place >= pages + PAGES * page_length) {
        signal(signal_number, SIG_DFL);
        return;
    }
    size_t page = (size_t)(place - pages) / page_length;
    written[page] = place;
    protect(page, PROT_READ | PROT_WRITE);
}

static void make_pages(void) {
    struct sigaction action = {.sa_sigaction = on_fault, .sa_flags = SA_SIGINFO};
    page_length = (size_t)sysconf(_SC_PAGESIZE);
    pages = mmap(NULL, PAGES * page_length, PROT_READ | PROT_WRITE, MAP_PRIVATE | MAP_ANONYMOUS, -1, 0);
    if (pages == MAP_FAILED || sigaction(SIGSEGV, &action, NULL) != 0 || sigaction(SIGBUS, &action, NULL) != 0)
        abort();
}

static void make_writable(void) {
    for (size_t page = 0; page < PAGES; page++)
        protect(page, PROT_READ | PROT_WRITE);
}

static void make_read_only(void) {
    for (size_t page = 0; page < PAGES; page++) {
        protect(page, PROT_READ);
        written[page] = NULL;
    }
}

static size_t page_of(const uint8_t *place) {
    return (size_t)(place - pages) / page_length;
}

/* The watch itself: a write of the byte that is there is seen, in its page alone. */
static void test_watch(void) {
    for (size_t page = 0; page < PAGES; page++) {
        volatile uint8_t *cell = pages + page * page_length + page_length / 2;
        make_read_only();
        *cell = *cell;
        check(written[page] == cell && written[1 - page] == NULL, "a write of the same byte is seen", page);
    }
}

/* ---- a board ---------------------------------------------------------------------------------------------------------------------------------------------- */

static const uint8_t label[QS_LABEL_LENGTH];
static uint8_t image[QS_IMAGE_LENGTH], room[QS_REPLY_ROOM];
static uint8_t before[QS_MEMORY_LENGTH(LARGEST)]; /* what memory holds when a request is sent */
static uint8_t total;

/* A fresh board; what memory is to hold is then put into `before`. */
static void new_board(uint8_t blocks) {
    total = blocks;
    memory_length = QS_MEMORY_LENGTH(blocks);
    memset(before, 0, sizeof before);
    check(qs_fresh(blocks, 24, 0, 4, 55, label, sizeof label, image, sizeof image) == 0, "a fresh board", blocks);
}

static uint8_t *status_of(unsigned field) {
    return before + QS_BLOCK * total + field;
}

/* Sends a request, memory read-only and so many of its cells in the first page: the reply's length. */
static uint64_t sent(size_t border, uint8_t command, const uint8_t *data, uint64_t length) {
    static uint32_t tick;
    uint8_t frame[QS_REQUEST_BUFFER];
    uint64_t n = qs_request(0, command, data, length, frame, sizeof frame);
    make_writable();
    memory = pages + page_length - border;
    memcpy(memory, before, memory_length);
    make_read_only();
    for (uint64_t i = 0; i < n; i++, tick += 44)
        check(QS_REPLY(qs_character(image, sizeof image, tick, frame[i], 0, memory, memory_length, room, sizeof room)) == 0, "a character is kept", i);
    tick += 220;
    return QS_REPLY(qs_poll(image, sizeof image, tick, memory, memory_length, room, sizeof room));
}

/* Whether the last request wrote nothing. */
static bool wrote_nothing(void) {
    return written[0] == NULL && written[1] == NULL && memcmp(memory, before, memory_length) == 0;
}

/* Whether it wrote to the page of this cell alone, and there to this cell first. */
static bool wrote_to(size_t cell) {
    const uint8_t *place = memory + cell;
    return written[page_of(place)] == place && written[1 - page_of(place)] == NULL;
}

/* Whether it wrote to exactly those pages that hold something else now, and there first to a cell that does. */
static bool wrote_to_what_changed(void) {
    bool changed[PAGES] = {false, false};
    for (size_t i = 0; i < memory_length; i++)
        changed[page_of(memory + i)] |= memory[i] != before[i];
    for (size_t page = 0; page < PAGES; page++) {
        const uint8_t *first = written[page];
        if ((first != NULL) != changed[page] || (first != NULL && *first == before[first - memory]))
            return false;
    }
    return true;
}

static void accepted(uint64_t length, uint8_t command, const char *what, unsigned long number) {
    check(length > 0 && room[1] == command, what, number);
}

/* ---- stores ----------------------------------------------------------------------------------------------------------------------------------------------- */

enum { BEFORE_IT = 3 }; /* blocks of the field before the one that is stored into */

/* A field of so many blocks behind another, filled with any bytes: its first cell. */
static size_t filled_field(unsigned blocks) {
    new_board((uint8_t)(BEFORE_IT + blocks + 1));
    for (size_t i = 0; i < QS_BLOCK * total; i++)
        before[i] = (uint8_t)dice();
    *status_of(0) = ONE_BLOCK + BEFORE_IT - 1;
    *status_of(1) = (uint8_t)(ONE_BLOCK + blocks - 1);
    return QS_BLOCK * BEFORE_IT;
}

/* The request that stores what is there. */
static void same_again(size_t field, size_t offset, size_t count, uint8_t *data) {
    const uint8_t head[] = {1, (uint8_t)offset, (uint8_t)count, CODE};
    memcpy(data, head, sizeof head);
    memcpy(data + sizeof head, before + field + offset, count);
}

/* Every part of a field stored again. */
static void test_store_again(unsigned blocks) {
    uint8_t data[4 + MOST];
    size_t field = filled_field(blocks), size = QS_BLOCK * blocks;
    for (size_t offset = 0; offset < size; offset++)
        for (size_t count = 1; offset + count <= size; count++) {
            same_again(field, offset, count, data);
            accepted(sent(field + offset + below((uint32_t)count), QS_STORE_DATA, data, 4 + count), QS_STORE_DATA, "the same store again", offset);
            check(wrote_nothing(), "the same store again writes nothing", offset * 1000 + count);
        }
}

/* A field stored again but for one cell, with every border: with some border a write to any other cell would be seen. */
static void test_store_one(unsigned blocks) {
    uint8_t data[4 + MOST];
    size_t field = filled_field(blocks), size = QS_BLOCK * blocks;
    for (size_t cell = 0; cell < size; cell++)
        for (size_t border = field; border <= field + size; border++) {
            same_again(field, 0, size, data);
            data[4 + cell] ^= (uint8_t)(1 + below(255));
            accepted(sent(border, QS_STORE_DATA, data, 4 + size), QS_STORE_DATA, "a store that changes one cell", cell);
            check(wrote_to(field + cell), "a store that changes one cell writes to its page alone", cell * 1000 + border);
            check(memory[field + cell] == data[4 + cell], "the cell that changes", cell);
        }
}

/* ---- blocks and statuses ---------------------------------------------------------------------------------------------------------------------------------- */

/* The field that is shaped here is the second. */
static void shape(size_t border, uint8_t status, const char *what, unsigned long number) {
    const uint8_t data[] = {1, status, CODE};
    accepted(sent(border, QS_CREATE_FIELD, data, sizeof data), QS_CREATE_FIELD, what, number);
}

/* From old to new blocks, none being no field: what 4Dh is sent for that. */
static uint8_t shaped_status(unsigned old, unsigned new) {
    return new == 0 ? QS_DELETION_OF(ONE_BLOCK + old - 1) : (uint8_t)(ONE_BLOCK + new - 1);
}

static size_t two_fields(unsigned old) {
    new_board(BEFORE_IT + MOST_BLOCKS + 1);
    memset(before, 0xA5, QS_BLOCK * BEFORE_IT);
    *status_of(0) = ONE_BLOCK + BEFORE_IT - 1;
    *status_of(1) = old == 0 ? 0 : (uint8_t)(ONE_BLOCK + old - 1);
    return QS_BLOCK * BEFORE_IT;
}

/* Blank blocks granted or given back: of all cells the status alone is written, and where it stays the same, none. */
static void test_blank_blocks(unsigned old, unsigned new) {
    (void)two_fields(old);
    for (size_t border = 0; border <= memory_length; border++) {
        shape(border, shaped_status(old, new), "blank blocks", old * 10 + new);
        check(old == new ? wrote_nothing() : wrote_to((size_t)(status_of(1) - before)), "blank blocks are not written", old * 10 + new);
    }
}

/* One cell of the run is not blank: it is written in the one page, the status in the other, which begins with the table. */
static void test_one_dirty_cell(unsigned old, unsigned new) {
    size_t field = two_fields(old), table = QS_BLOCK * total;
    size_t least = QS_BLOCK * (old < new ? old : new), most = QS_BLOCK * (old < new ? new : old);
    for (size_t cell = field + least; cell < field + most; cell++) {
        before[cell] = (uint8_t)(1 + below(255));
        shape(table, shaped_status(old, new), "a cell that is not blank", cell);
        check(written[0] == memory + cell && written[1] == memory + table + 1 && memory[cell] == 0, "of a run of blocks what is not blank is written", cell);
        before[cell] = 0;
    }
}

/* The attributes alone change, or nothing does, whatever the field holds. */
static void test_attributes(void) {
    size_t field = two_fields(2), table = QS_BLOCK * total;
    memset(before + field, 0x5A, 2 * QS_BLOCK);
    for (unsigned old = 0; old < 16; old++)
        for (unsigned new = 0; new < 16; new++)
            for (size_t border = table - 1; border <= table + 3; border++) {
                *status_of(1) = (uint8_t)(0x81 + 8 * old);
                shape(border, (uint8_t)(0x81 + 8 * new), "attributes", old * 16 + new);
                check(old == new ? wrote_nothing() : wrote_to(table + 1), "the status alone is written, and only if it changes", old * 16 + new);
            }
}

/* ---- all else --------------------------------------------------------------------------------------------------------------------------------------------- */

/* What reads, and what is refused, writes nothing. */
static void test_nothing_stored(void) {
    static const struct {
        uint8_t command, length, data[6], reply;
    } REQUESTS[] = {
        {QS_READ_DATA, 4, {1, 0, 32, CODE}, QS_READ_DATA},
        {QS_FIELD_STATUS, 1, {1}, QS_FIELD_STATUS},
        {QS_MEMORY_STATUS, 0, {0}, QS_MEMORY_STATUS},
        {QS_STORE_DATA, 5, {0, 0, 1, CODE, 1}, QS_READ_STATUS},           /* read-only */
        {QS_STORE_DATA, 5, {1, 0, 1, WRONG, 1}, QS_READ_STATUS},          /* code */
        {QS_STORE_DATA, 6, {1, 31, 2, CODE, 1, 1}, QS_READ_STATUS},       /* outside the field */
        {QS_STORE_DATA, 5, {2, 0, 1, CODE, 1}, QS_READ_STATUS},           /* no field */
        {QS_CREATE_FIELD, 3, {2, ONE_BLOCK + 7, CODE}, QS_READ_STATUS},   /* no room */
        {QS_CREATE_FIELD, 3, {2, ONE_BLOCK, WRONG}, QS_READ_STATUS},      /* code */
        {QS_CREATE_FIELD, 3, {0, ONE_BLOCK + 1, CODE}, QS_READ_STATUS},   /* not the last */
        {QS_CREATE_FIELD, 3, {1, 0x00, CODE}, QS_READ_STATUS},            /* another status than the stored one */
        {QS_CREATE_FIELD, 3, {3, ONE_BLOCK, CODE}, QS_READ_STATUS},       /* no field */
        {QS_SET_POSITION, 5, {0, 0, 0, 1, CODE}, QS_SET_POSITION},
        {QS_INCREMENT_COUNTER, 0, {0}, QS_INCREMENT_COUNTER},
        {QS_SET_ACCESS_CODE, 3, {3, CODE, CODE}, QS_SET_ACCESS_CODE},
        {QS_SET_ADDRESS, 2, {0x40, CODE}, QS_SET_ADDRESS},
    };
    new_board(8);
    memset(before, 0xA5, QS_BLOCK * 8);
    *status_of(0) = READ_ONLY;
    *status_of(1) = ONE_BLOCK + CODE_WANTED + 1;
    for (size_t i = 0; i < COUNT(REQUESTS); i++)
        for (size_t border = 0; border <= memory_length; border++) {
            accepted(sent(border, REQUESTS[i].command, REQUESTS[i].data, REQUESTS[i].length), REQUESTS[i].reply, "a request that stores nothing", i);
            check(wrote_nothing(), "a request that stores nothing writes nothing", i);
        }
}

/* A frame that stores, which calls that are refused do not close; then one closes it. */
static void test_refused_calls(void) {
    const uint8_t data[] = {0, 0, 1, CODE, 0x11};
    uint8_t frame[QS_REQUEST_BUFFER];
    new_board(1);
    *status_of(0) = ONE_BLOCK;
    (void)sent(0, QS_MEMORY_STATUS, data, 0); /* memory has its place now */
    uint64_t n = qs_request(0, QS_STORE_DATA, data, sizeof data, frame, sizeof frame);
    for (uint32_t i = 0; i < n; i++)
        (void)qs_character(image, sizeof image, 44 * i, frame[i], 0, memory, memory_length, room, sizeof room);
    const uint32_t tick = 10000;
    check(QS_REPLY(qs_poll(image, sizeof image - 1, tick, memory, memory_length, room, sizeof room)) == QS_R1 && wrote_nothing(), "R1", 0);
    check(QS_REPLY(qs_poll(image, sizeof image, tick, memory, memory_length - 1, room, sizeof room)) == QS_R2 && wrote_nothing(), "R2", 0);
    check(QS_REPLY(qs_poll(image, sizeof image, tick, memory, memory_length, room, sizeof room - 1)) == QS_R3 && wrote_nothing(), "R3", 0);
    accepted(QS_REPLY(qs_poll(image, sizeof image, tick, memory, memory_length, room, sizeof room)), QS_STORE_DATA, "the store itself", 0);
    check(wrote_to(0) && memory[0] == 0x11, "the store itself", 0);
}

/* Any requests on any memory; what each leaves is what the next finds. Stores have most of their bytes from memory. */
static void test_dice(void) {
    unsigned long stored = 0, unchanged = 0;
    for (unsigned long i = 0; i < 40000; i++) {
        uint8_t data[4 + MOST], command = QS_STORE_DATA;
        uint64_t length = 3;
        if (i % 400 == 0) {
            new_board((uint8_t)(1 + below(LARGEST)));
            for (size_t k = 0; k < QS_BLOCK * total && once_in(2); k++)
                before[k] = once_in(2) ? 0 : (uint8_t)dice();
        }
        data[0] = (uint8_t)below(once_in(20) ? 256 : 6);
        if (once_in(3)) {
            command = QS_CREATE_FIELD;
            data[1] = once_in(3) ? QS_DELETION_OF(*status_of(data[0] % total)) : (uint8_t)(ONE_BLOCK + below(8) + (once_in(8) ? CODE_WANTED : 0));
            data[2] = once_in(20) ? WRONG : CODE;
        } else {
            size_t count = 1 + below(once_in(2) ? 16 : MOST), from = below(QS_BLOCK * total);
            data[1] = (uint8_t)(once_in(2) ? 0 : below(MOST));
            data[2] = (uint8_t)count;
            data[3] = CODE;
            for (size_t k = 0; k < count; k++)
                data[4 + k] = once_in(30) ? (uint8_t)dice() : before[(from + k) % (QS_BLOCK * total)];
            if (data[0] == 0)
                memcpy(data + 4, before + data[1] % QS_BLOCK, once_in(2) ? count : count / 2);
            length = 4 + count;
        }
        check(sent(below((uint32_t)memory_length + 1), command, data, length) > 0, "a reply", i);
        check(wrote_to_what_changed(), "what changes is written, page by page", i);
        stored += room[1] == command;
        unchanged += room[1] == command && wrote_nothing();
        memcpy(before, memory, memory_length);
    }
    check(unchanged > 1000 && stored - unchanged > 5000, "accepted requests, without a change and with one", stored);
}

int main(void) {
    make_pages();
    test_watch();
    for (unsigned blocks = 1; blocks <= MOST_BLOCKS; blocks += blocks == 1 ? 3 : 4) {
        test_store_again(blocks);
        test_store_one(blocks);
    }
    for (unsigned old = 0; old <= MOST_BLOCKS; old++)
        for (unsigned new = 0; new <= MOST_BLOCKS; new++) {
            if (old == 0 && new == 0)
                continue;
            test_blank_blocks(old, new);
            test_one_dirty_cell(old, new);
        }
    test_attributes();
    test_nothing_stored();
    test_refused_calls();
    test_dice();
    return ended();
}
