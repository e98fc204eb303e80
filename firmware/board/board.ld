/* Where a firmware lies on the emulated board: program from 0 on, RAM from 2000'0000h on. The two pages of flash for what must last are elsewhere (flash.c); on a chip
 * that has one flash for all, LENGTH leaves them out. */
MEMORY {
    FLASH (rx) : ORIGIN = 0x00000000, LENGTH = 64K
    RAM (rwx) : ORIGIN = 0x20000000, LENGTH = 16K
}
/* The most that docs/FIRMWARE.md tells of a call, main's and an interrupt's own, and memcpy's. */
stack_length = 2K;
SECTIONS {
    .text : { KEEP(*(.vectors)) *(.text .text.* .rodata .rodata.*) } > FLASH
    .stack (NOLOAD) : { . += stack_length; stack_top = .; } > RAM
    .data : { ram_data = .; *(.data .data.*) . = ALIGN(4); ram_data_end = .; } > RAM AT > FLASH
    flash_data = LOADADDR(.data);
    .bss (NOLOAD) : { ram_zero = .; *(.bss .bss.* COMMON) . = ALIGN(4); ram_zero_end = .; } > RAM
    /DISCARD/ : { *(.ARM.exidx* .ARM.extab*) }
}
