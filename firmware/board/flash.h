/* Two pages of flash. A page is erased whole, to FFh; a word is written where it is erased, and writing clears bits only. */
#ifndef FLASH_H
#define FLASH_H

#include <stdint.h>

enum { FLASH_PAGES = 2, FLASH_PAGE_LENGTH = 2048, FLASH_WORD = 4 };

/* The bytes of a page. */
const uint8_t *flash_page(unsigned page);

/* Each is one step: a supply that goes leaves the steps before it done, and those behind it undone. */
void flash_erase(unsigned page);
void flash_write(unsigned page, unsigned place, uint32_t word);

#endif
