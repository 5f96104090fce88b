/*
 * The emulated boards mps2-an386 and mps2-an505: 4 MB of code and 4 MB of data. The stack has 512 KB. The places are
 * those of mps2-an386, unless BOARD_CODE and BOARD_DATA are defined.
 */
ENTRY(_start)
MEMORY {
    CODE (rx) : ORIGIN = DEFINED(BOARD_CODE) ? BOARD_CODE : 0x00000000, LENGTH = 4M
    DATA (rw) : ORIGIN = DEFINED(BOARD_DATA) ? BOARD_DATA : 0x20000000, LENGTH = 4M
}
SECTIONS {
    .text : {
        KEEP(*(.vectors))
        *(.text*) *(.rodata*)
        KEEP(*(.init)) KEEP(*(.fini))
        . = ALIGN(4);
        __preinit_array_start = .; KEEP(*(.preinit_array*)) __preinit_array_end = .;
        __init_array_start = .; KEEP(*(SORT(.init_array.*))) KEEP(*(.init_array)) __init_array_end = .;
        __fini_array_start = .; KEEP(*(SORT(.fini_array.*))) KEEP(*(.fini_array)) __fini_array_end = .;
    } > CODE
    .ARM.exidx : { __exidx_start = .; *(.ARM.exidx*) __exidx_end = .; } > CODE
    /* The emulator lays them there. */
    .data : { *(.data*) } > DATA
    .bss : { __bss_start__ = .; *(.bss*) *(COMMON) __bss_end__ = .; } > DATA
    end = ALIGN(8);
    __end__ = end;
    __stack = ORIGIN(DATA) + LENGTH(DATA);
    __StackLimit = __stack - 512K;
    __HeapLimit = __StackLimit;
}
