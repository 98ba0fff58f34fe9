/* Flash at 0 and RAM at 0x20000000, as a Cortex-M has them, and what newlib asks of a layout. */
MEMORY {
    FLASH (rx) : ORIGIN = DEFINED(flash) ? flash : 0, LENGTH = 256K
    RAM (rwx) : ORIGIN = DEFINED(ram) ? ram : 0x20000000, LENGTH = DEFINED(ram_size) ? ram_size : 16K
}
ENTRY(_start)
SECTIONS {
    .text : { KEEP(*(.vectors)) *(.text*) *(.rodata*) } > FLASH
    .init : { KEEP(*(SORT_NONE(.init))) } > FLASH
    .fini : { KEEP(*(SORT_NONE(.fini))) } > FLASH
    .arrays : {
        __preinit_array_start = .; KEEP(*(.preinit_array)) __preinit_array_end = .;
        __init_array_start = .; KEEP(*(.init_array*)) __init_array_end = .;
        __fini_array_start = .; KEEP(*(.fini_array*)) __fini_array_end = .;
    } > FLASH
    .ARM.exidx : { __exidx_start = .; *(.ARM.exidx*) __exidx_end = .; } > FLASH
    .data : { *(.data*) } > RAM
    .bss : { __bss_start__ = .; *(.bss*) *(COMMON) __bss_end__ = .; } > RAM
    end = .;
    __end__ = .;
    stack_top = ORIGIN(RAM) + LENGTH(RAM);
}
