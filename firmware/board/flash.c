/* The flash of the emulated board: see flash.h. The emulator backs this memory by a file, which is there when the emulator is not; the two functions behave as a
 * flash does. On a real chip they are its flash controller's, and the linker script keeps the two pages free. */
#include "flash.h"

#define PAGES ((volatile uint32_t *)0x21000000)
enum { PAGE_WORDS = FLASH_PAGE_LENGTH / FLASH_WORD };

const uint8_t *flash_page(unsigned page) {
    return (const uint8_t *)(uintptr_t)(PAGES + page * PAGE_WORDS);
}

void flash_erase(unsigned page) {
    for (unsigned i = 0; i < PAGE_WORDS; i++)
        PAGES[page * PAGE_WORDS + i] = UINT32_MAX;
}

void flash_write(unsigned page, unsigned place, uint32_t word) {
    PAGES[page * PAGE_WORDS + place / FLASH_WORD] &= word;
}
