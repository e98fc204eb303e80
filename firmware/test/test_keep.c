/* The page pair of board/keep.c on the host, over a flash that is cut before, between and within any two of its steps, loses bits, or does not take what is written.
 * Prints what failed, ends in 1 if any did. */
#define PROGRAM "test_keep.c"
#include "testing.h"

#include "flash.h"
#include "keep.h"

#include <setjmp.h>

/* ---- a flash ---------------------------------------------------------------------------------------------------------------------------------------------- */

static uint8_t pages[FLASH_PAGES][FLASH_PAGE_LENGTH];
static unsigned steps_left; /* before the supply goes */
static unsigned steps;      /* that were done */
static bool within;         /* the supply goes while the next step is done: some of its bits are changed */
static bool stuck;          /* one bit of each word that is written stays as it is */
static jmp_buf supply_gone;

const uint8_t *flash_page(unsigned page) {
    return pages[page];
}

static uint32_t some_bits(void) {
    return (uint32_t)dice() & (uint32_t)dice();
}

static void set_word(unsigned page, unsigned place, uint32_t word) {
    for (unsigned i = 0; i < FLASH_WORD; i++)
        pages[page][place + i] = (uint8_t)(word >> 8 * i);
}

static uint32_t word_at(unsigned page, unsigned place) {
    return little_32(pages[page] + place);
}

static bool supply_goes(void) {
    return steps_left == 0 || steps_left-- == 0;
}

void flash_erase(unsigned page) {
    bool goes = supply_goes();
    for (unsigned place = 0; place < FLASH_PAGE_LENGTH && (!goes || within); place += FLASH_WORD)
        set_word(page, place, word_at(page, place) | (goes ? some_bits() : UINT32_MAX));
    if (goes)
        longjmp(supply_gone, 1);
    steps++;
}

/* Writing clears bits, and no word may be written twice but to 0. */
void flash_write(unsigned page, unsigned place, uint32_t word) {
    uint32_t before = word_at(page, place), after = before & word;
    bool goes = supply_goes();
    check(place % FLASH_WORD == 0 && place < FLASH_PAGE_LENGTH && page < FLASH_PAGES, "a place of the flash", place);
    check(before == UINT32_MAX || word == 0 || within, "only what is erased is written, or cleared", place);
    if (stuck && place > 8)
        after |= before & ~word & (~word + 1); /* the lowest bit that was to be cleared */
    if (!goes || within)
        set_word(page, place, goes ? after | (before & some_bits()) : after);
    if (goes)
        longjmp(supply_gone, 1);
    steps++;
}

/* ---- a board's bytes ---------------------------------------------------------------------------------------------------------------------------------------- */

enum { NEVER = 1 << 30, LARGEST = 112 };

struct bytes {
    uint8_t lasting[QS_LASTING_LENGTH], memory[QS_MEMORY_LENGTH(LARGEST)];
};
static struct bytes held, wanted, found_bytes;
static uint8_t total, bits;

static struct kept kept_of(struct bytes *bytes) {
    return (struct kept){.total = total, .bits = bits, .lasting = bytes->lasting, .memory = bytes->memory};
}

static void throw_bytes(struct bytes *bytes) {
    for (size_t i = 0; i < sizeof bytes->lasting; i++)
        bytes->lasting[i] = (uint8_t)dice();
    for (size_t i = 0; i < QS_MEMORY_LENGTH(total); i++)
        bytes->memory[i] = once_in(2) ? 0 : (uint8_t)dice();
}

static bool are_found(const struct bytes *bytes) {
    return memcmp(&found_bytes, bytes, sizeof found_bytes) == 0;
}

/* The board starts: what is found, with the bytes in found_bytes, or 00h where there are none. */
static enum found start(void) {
    struct kept kept = kept_of(&found_bytes);
    steps_left = NEVER;
    memset(&found_bytes, 0, sizeof found_bytes);
    return keep_read(&kept);
}

/* Whether wanted was written before the supply went, after so many steps. */
static bool is_written(unsigned after) {
    struct kept kept = kept_of(&wanted);
    steps = 0;
    steps_left = after;
    if (setjmp(supply_gone) != 0)
        return false;
    return keep_write(&kept);
}

static void new_flash(uint8_t blocks) {
    total = blocks;
    bits = 24;
    memset(pages, 0xFF, sizeof pages);
    memset(&held, 0, sizeof held);
    memset(&wanted, 0, sizeof wanted);
}

/* ---- cuts --------------------------------------------------------------------------------------------------------------------------------------------------- */

/* A write cut after so many steps. The checksum is the last step but one: before it what was held holds, behind it what was wanted; within either. */
static void cut(unsigned after, unsigned all, enum found expected) {
    uint8_t before[sizeof pages];
    memcpy(before, pages, sizeof pages);
    (void)start();
    check(!is_written(after), "a write that is cut", after);
    enum found found = start();
    bool old = are_found(&held), new = are_found(&wanted);
    if (within ? old : after < all - 1)
        check(found == expected && old, "what was held before", after);
    else
        check(found == FOUND_WHOLE && new, "what was to be held", after);
    check(start() == found && (are_found(&held) == old), "once more the same", after);
    memcpy(pages, before, sizeof pages);
    (void)start();
}

/* Four writes, each cut at every step, then done. */
static void test_cuts(uint8_t blocks) {
    new_flash(blocks);
    for (int round = 0; round < 4; round++) {
        enum found expected = round == 0 ? FOUND_NONE : FOUND_WHOLE;
        check(start() == expected && are_found(&held), "what is held", (unsigned long)round);
        throw_bytes(&wanted);
        unsigned all = 2 + (uint32_t)(20 + QS_MEMORY_LENGTH(blocks) + 3) / 4 + 2;
        for (unsigned after = 0; after < all; after++)
            for (int torn = 0; torn <= 2; torn++) {
                within = torn > 0;
                cut(after, all, expected);
            }
        within = false;
        check(is_written(NEVER) && steps == all, "a write", steps);
        held = wanted;
    }
}

/* A long run of writes, cut or not, from a flash that each of them left. */
static void test_long_run(uint8_t blocks) {
    new_flash(blocks);
    for (unsigned long i = 0; i < 3000; i++) {
        throw_bytes(&wanted);
        within = once_in(2);
        bool written = is_written(once_in(3) ? NEVER : below(40 + 6 * blocks));
        within = true; /* the mark of a page whose last step was cut is written again */
        enum found found = start();
        check(found == FOUND_WHOLE || (found == FOUND_NONE && !written), "no damage is told", i);
        check(are_found(&wanted) || (!written && are_found(&held)), "what was held, or was to be held", i);
        held = found_bytes;
    }
    within = false;
}

/* A finished page is given another count, and the checksum that belongs to it. */
static void set_count(unsigned page, uint32_t count) {
    unsigned sum_place = 24 + (unsigned)(QS_MEMORY_LENGTH(total) + 3) / 4 * 4;
    uint32_t crc = UINT32_MAX;
    set_word(page, 4, count);
    for (unsigned bit = 8 * 4; bit < 8 * sum_place; bit++)
        crc = crc >> 1 ^ (((crc ^ pages[page][bit / 8] >> bit % 8) & 1) != 0 ? 0xEDB88320u : 0);
    set_word(page, sum_place, ~crc);
}

/* The count of the writes goes round: the page that is ahead holds. */
static void test_count(void) {
    for (uint32_t count = UINT32_MAX - 3; count != 4; count++) {
        new_flash(1);
        (void)start();
        throw_bytes(&wanted);
        check(is_written(NEVER), "the first write", count);
        held = wanted;
        throw_bytes(&wanted);
        check(is_written(NEVER), "the second write", count);
        set_count(0, count);
        set_count(1, count + 1);
        check(start() == FOUND_WHOLE && are_found(&wanted), "the second holds", count);
        set_count(0, count + 2);
        check(start() == FOUND_WHOLE && are_found(&held), "the first holds", count);
        for (unsigned more = 0; more < 3; more++) {
            throw_bytes(&wanted);
            check(is_written(NEVER) && start() == FOUND_WHOLE && are_found(&wanted), "a further write", count);
        }
    }
}

/* ---- damage ------------------------------------------------------------------------------------------------------------------------------------------------ */

/* Two writes; then each bit of each page is flipped once. */
static void test_flipped_bits(uint8_t blocks) {
    static struct bytes older;
    new_flash(blocks);
    (void)start();
    throw_bytes(&wanted);
    check(is_written(NEVER), "the first write", 0);
    older = wanted;
    throw_bytes(&wanted);
    check(is_written(NEVER), "the second write", 0);
    unsigned length = 24 + (unsigned)(QS_MEMORY_LENGTH(blocks) + 3) / 4 * 4 + 4;
    for (unsigned page = 0; page < FLASH_PAGES; page++)
        for (unsigned bit = 0; bit < 8 * length; bit++) {
            uint8_t before[sizeof pages];
            memcpy(before, pages, sizeof pages);
            pages[page][bit / 8] ^= (uint8_t)(1 << bit % 8);
            within = true;
            enum found found = start();
            bool in_mark = bit < 32;
            check(found == (in_mark ? FOUND_WHOLE : FOUND_OLDER), "damage is told, but of the mark", bit);
            check(are_found(in_mark || page == 0 ? &wanted : &older), "what is whole still", bit);
            within = false;
            memcpy(pages, before, sizeof pages);
        }
}

/* The supply went between checksum and mark: the page holds, and once the board has started its damage is told as any other's. */
static void test_without_mark(void) {
    new_flash(4);
    (void)start();
    for (unsigned round = 0; round < 4; round++) {
        throw_bytes(&wanted);
        unsigned last = 2 + (uint32_t)(20 + QS_MEMORY_LENGTH(4) + 3) / 4 + 1;
        check(!is_written(last) && start() == FOUND_WHOLE && are_found(&wanted), "a page without its mark", round);
        pages[round % 2][40] ^= 1;
        check(start() == (round == 0 ? FOUND_DAMAGE : FOUND_OLDER), "its damage", round);
        pages[round % 2][40] ^= 1;
        check(start() == FOUND_WHOLE && are_found(&wanted), "the damage undone", round);
    }
}

/* Both pages damaged, or of another plate: told, and no byte of theirs is taken. The next write makes the board whole again, the second forgets the damage. */
static void test_all_damaged(void) {
    static const struct bytes none;
    for (int way = 0; way < 3; way++) {
        new_flash(8);
        (void)start();
        for (int i = 0; i < 2; i++) {
            throw_bytes(&wanted);
            check(is_written(NEVER), "a write", (unsigned long)i);
        }
        if (way == 0)
            pages[0][20] ^= 1, pages[1][30] ^= 0x80;
        else if (way == 1)
            total = 7;
        else
            bits = 23;
        check(start() == FOUND_DAMAGE && are_found(&none), "damage of both", (unsigned long)way);
        memset(&wanted, 0, sizeof wanted);
        throw_bytes(&wanted);
        check(is_written(NEVER) && start() == FOUND_OLDER && are_found(&wanted), "the first write after it", (unsigned long)way);
        check(is_written(NEVER) && steps == 0 && start() == FOUND_OLDER, "the same write again", (unsigned long)way);
        throw_bytes(&wanted);
        check(is_written(NEVER) && start() == FOUND_WHOLE && are_found(&wanted), "the second write after it", (unsigned long)way);
    }
}

/* Written again, the flash is left alone; with any one bit changed it is written. Of many blocks some of the bits are tried. */
static void test_same_again(uint8_t blocks) {
    static uint8_t before[sizeof pages];
    new_flash(blocks);
    (void)start();
    check(is_written(NEVER) && steps > 0, "the first write, of a fresh board's bytes", blocks);
    size_t length = QS_LASTING_LENGTH + QS_MEMORY_LENGTH(blocks);
    for (unsigned long bit = 0; bit < 8 * length; bit += 1 + blocks / 8) {
        uint8_t *bytes = (uint8_t *)&wanted; /* lasting bytes, then memory */
        memcpy(before, pages, sizeof pages);
        check(is_written(0) && memcmp(before, pages, sizeof pages) == 0, "written again", bit);
        bytes[bit / 8] ^= (uint8_t)(1 << bit % 8);
        check(is_written(NEVER) && steps > 0 && start() == FOUND_WHOLE && are_found(&wanted), "written with one bit changed", bit);
    }
}

/* A flash that does not take a word: told, and what was held holds. */
static void test_stuck(void) {
    new_flash(8);
    (void)start();
    throw_bytes(&wanted);
    check(is_written(NEVER), "a write", 0);
    held = wanted;
    for (unsigned long i = 0; i < 20; i++) {
        throw_bytes(&wanted);
        stuck = true;
        check(!is_written(NEVER), "a write that is not taken", i);
        stuck = false;
        check(start() == FOUND_WHOLE && are_found(&held), "what was held holds", i);
    }
    check(is_written(NEVER) && start() == FOUND_WHOLE && are_found(&wanted), "a flash that takes it again", 0);
}

int main(void) {
    static const uint8_t SOME[] = {1, 2, 3, 4, 8, 112};
    for (size_t i = 0; i < COUNT(SOME); i++)
        test_cuts(SOME[i]);
    test_long_run(1);
    test_long_run(8);
    test_count();
    for (size_t i = 0; i < COUNT(SOME); i++)
        test_flipped_bits(SOME[i]);
    test_without_mark();
    test_all_damaged();
    for (size_t i = 0; i < COUNT(SOME); i++)
        test_same_again(SOME[i]);
    test_stuck();
    return ended();
}
