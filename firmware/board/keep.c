/* What must last: see keep.h. A page:
 *
 *     place  bytes  what
 *         0      4  mark, written last: the page was finished, so that damage can be told from a write that was cut short. 0 before the page is erased
 *         4      4  count of the writes, low byte first: of two pages the one that is ahead is newer
 *         8      4  total blocks, position bits, FFh, FFh
 *        12     12  what must last: codes, counter, address in force, offset, as in the image
 *        24    17T  memory, then FFh up to a whole word
 *       end      4  CRC-32 of all from 4 on (the polynomial of IEEE 802.3), low byte first
 */
#include "keep.h"

#include "flash.h"

#include <string.h>

enum { MARK_PLACE = 0, COUNT_PLACE = 4, PLATE_PLACE = 8, LASTING_PLACE = 12, MEMORY_PLACE = LASTING_PLACE + QS_LASTING_LENGTH };
static const uint32_t MARK = 0x31425351; /* QSB1 */
_Static_assert(MEMORY_PLACE + QS_MEMORY_LENGTH(112) + FLASH_WORD <= FLASH_PAGE_LENGTH, "the largest memory and its checksum are in a page");

enum page { DAMAGED, UNFINISHED, WHOLE };

/* ---- bytes of a page ------------------------------------------------------------------------------------------------------------------------------------ */

static uint32_t memory_length(const struct kept *kept) {
    return (uint32_t)QS_MEMORY_LENGTH(kept->total);
}

/* The place of the checksum. */
static uint32_t sum_place(const struct kept *kept) {
    return (MEMORY_PLACE + memory_length(kept) + FLASH_WORD - 1) / FLASH_WORD * FLASH_WORD;
}

static uint32_t word_at(const uint8_t *at) {
    return (uint32_t)at[0] | (uint32_t)at[1] << 8 | (uint32_t)at[2] << 16 | (uint32_t)at[3] << 24;
}

static uint32_t crc_with(uint32_t crc, uint8_t byte) {
    crc ^= byte;
    for (int bit = 0; bit < 8; bit++)
        crc = crc >> 1 ^ (crc & 1 ? 0xEDB88320u : 0);
    return crc;
}

static bool sum_is_right(const struct kept *kept, unsigned page) {
    const uint8_t *bytes = flash_page(page);
    uint32_t crc = UINT32_MAX;
    for (uint32_t place = COUNT_PLACE; place < sum_place(kept); place++)
        crc = crc_with(crc, bytes[place]);
    return word_at(bytes + sum_place(kept)) == ~crc;
}

static bool is_of_plate(const struct kept *kept, unsigned page) {
    const uint8_t *bytes = flash_page(page);
    return bytes[PLATE_PLACE] == kept->total && bytes[PLATE_PLACE + 1] == kept->bits;
}

/* With its checksum a page is whole, also where the supply went before the mark. A page of another plate is not this board's: damaged. */
static enum page condition_of(const struct kept *kept, unsigned page) {
    if (is_of_plate(kept, page) && sum_is_right(kept, page))
        return WHOLE;
    return word_at(flash_page(page) + MARK_PLACE) == MARK ? DAMAGED : UNFINISHED;
}

/* ---- reading -------------------------------------------------------------------------------------------------------------------------------------------- */

/* The page that holds, FLASH_PAGES for none, and the count of the next write. */
static struct {
    unsigned page;
    uint32_t next_count;
} now = {.page = FLASH_PAGES};

static void holds(unsigned page) {
    now.page = page;
    now.next_count = page == FLASH_PAGES ? 0 : word_at(flash_page(page) + COUNT_PLACE) + 1;
}

/* The count goes round, so that the difference tells which is ahead. */
static unsigned newer(void) {
    uint32_t ahead = word_at(flash_page(1) + COUNT_PLACE) - word_at(flash_page(0) + COUNT_PLACE);
    return ahead <= INT32_MAX ? 1 : 0;
}

enum found keep_read(const struct kept *kept) {
    enum page first = condition_of(kept, 0), second = condition_of(kept, 1);
    bool damage = first == DAMAGED || second == DAMAGED;
    holds(first == WHOLE && second == WHOLE ? newer() : first == WHOLE ? 0 : second == WHOLE ? 1 : FLASH_PAGES);
    if (now.page == FLASH_PAGES)
        return damage ? FOUND_DAMAGE : FOUND_NONE;
    if (word_at(flash_page(now.page) + MARK_PLACE) != MARK)
        flash_write(now.page, MARK_PLACE, MARK); /* the supply went before it */
    memcpy(kept->lasting, flash_page(now.page) + LASTING_PLACE, QS_LASTING_LENGTH);
    memcpy(kept->memory, flash_page(now.page) + MEMORY_PLACE, memory_length(kept));
    return damage ? FOUND_OLDER : FOUND_WHOLE;
}

/* ---- writing -------------------------------------------------------------------------------------------------------------------------------------------- */

/* What belongs at a place between mark and checksum. */
static uint8_t byte_for(const struct kept *kept, uint32_t place) {
    if (place >= MEMORY_PLACE)
        return place - MEMORY_PLACE < memory_length(kept) ? kept->memory[place - MEMORY_PLACE] : 0xFF;
    if (place >= LASTING_PLACE)
        return kept->lasting[place - LASTING_PLACE];
    if (place >= PLATE_PLACE)
        return place == PLATE_PLACE ? kept->total : place == PLATE_PLACE + 1 ? kept->bits : 0xFF;
    return (uint8_t)(now.next_count >> 8 * (place - COUNT_PLACE));
}

/* Writes a word; whether it is there. */
static bool is_written(unsigned page, uint32_t place, uint32_t word) {
    flash_write(page, place, word);
    return word_at(flash_page(page) + place) == word;
}

/* Without its mark, a page whose erasure is cut short is not taken for one that was damaged. */
static void clear_page(unsigned page) {
    flash_write(page, MARK_PLACE, 0);
    flash_erase(page);
}

/* All between mark and checksum, and the checksum. */
static bool content_is_written(const struct kept *kept, unsigned page) {
    uint32_t crc = UINT32_MAX;
    for (uint32_t place = COUNT_PLACE; place < sum_place(kept); place += FLASH_WORD) {
        uint8_t bytes[FLASH_WORD];
        for (uint32_t i = 0; i < FLASH_WORD; i++) {
            bytes[i] = byte_for(kept, place + i);
            crc = crc_with(crc, bytes[i]);
        }
        if (!is_written(page, place, word_at(bytes)))
            return false;
    }
    return is_written(page, sum_place(kept), ~crc);
}

/* Whether the page that holds has these bytes already. */
static bool is_held(const struct kept *kept) {
    if (now.page == FLASH_PAGES)
        return false;
    for (uint32_t place = LASTING_PLACE; place < sum_place(kept); place++)
        if (flash_page(now.page)[place] != byte_for(kept, place))
            return false;
    return true;
}

bool keep_write(const struct kept *kept) {
    if (is_held(kept))
        return true; /* erasing and writing wear the flash */
    unsigned page = now.page == 0 ? 1 : 0;
    clear_page(page);
    if (!content_is_written(kept, page))
        return false;
    flash_write(page, MARK_PLACE, MARK);
    holds(page);
    return true;
}
