/*
 * SPDX-License-Identifier: Apache-2.0 OR MIT
 * Copyright 2026 The Gihandop authors
 *
 * The emulated boards of mps2.c. They have 4 MiB of code and 4 MiB of data, of which the firmware uses as much as a
 * small chip has. The Makefile sets the places and sizes.
 *
 * The stack is first in the RAM, so that the guard of start.c is before the RAM and takes nothing of it.
 */
ENTRY(reset)

MEMORY {
    FLASH (rx) : ORIGIN = FLASH_START, LENGTH = FLASH_SIZE
    RAM (rw) : ORIGIN = RAM_START, LENGTH = RAM_SIZE
    SAVED (rw) : ORIGIN = SAVED_START, LENGTH = 16M
}

ram_start = ORIGIN(RAM);
ASSERT(ram_start % 64K == 0, "the guard of the stack needs a RAM that begins at a multiple of its size")

SECTIONS {
    .text : {
        KEEP(*(.vectors))
        KEEP(*(.vectors.board))
        *(.text*)
        *(.rodata*)
        . = ALIGN(4);
    } > FLASH
    .ARM.exidx : { *(.ARM.exidx*) } > FLASH

    .stack (NOLOAD) : {
        stack_low = .;
        . += STACK_SIZE;
        . = ALIGN(8);
        stack_high = .;
        . += 1K;
        handler_stack_high = .;
    } > RAM
    .data : {
        data_start = .;
        *(.data*)
        . = ALIGN(4);
        data_end = .;
    } > RAM AT > FLASH
    data_from = LOADADDR(.data);
    .bss (NOLOAD) : {
        bss_start = .;
        *(.bss*) *(COMMON)
        . = ALIGN(4);
        bss_end = .;
    } > RAM

    /* What survives a start. */
    .saved (NOLOAD) : { emulated_flash = .; } > SAVED

    /DISCARD/ : { *(.comment) *(.ARM.attributes) }
}
