/* Memory of the emulated MPS2 boards for the tests' programs: all of both static RAMs, which each of them has at these places. The stack lies at the lower end, so that
 * one that is too long is a fault; what is left is the heap. */
MEMORY {
    FLASH (rx) : ORIGIN = 0x00000000, LENGTH = 4M
    RAM (rwx) : ORIGIN = 0x20000000, LENGTH = 4M
}
SECTIONS {
    .text : { KEEP(*(.vectors)) *(.text .text.* .rodata .rodata.*) } > FLASH
    .stack (NOLOAD) : { . += 64K; stack_top = .; } > RAM
    .data : { ram_data = .; *(.data .data.*) . = ALIGN(4); ram_data_end = .; } > RAM AT > FLASH
    flash_data = LOADADDR(.data);
    .bss (NOLOAD) : { ram_zero = .; *(.bss .bss.* COMMON) . = ALIGN(8); ram_zero_end = .; } > RAM
    .lasts (NOLOAD) : { *(.lasts) } > RAM
    heap = ALIGN(8);
    heap_end = ORIGIN(RAM) + LENGTH(RAM);
    /DISCARD/ : { *(.ARM.exidx* .ARM.extab*) }
}
