/*
 * SPDX-License-Identifier: Apache-2.0 OR MIT
 * Copyright 2026 The Gihandop authors
 *
 * The flash of a board, which store.c saves to: two sectors that can be read as memory. Write these three
 * functions and three numbers for a board of your own. emulated_flash.c has them for the emulator.
 *
 * The flash is a NOR flash: erasing a sector sets all of its bits, and a write only clears bits. store.c
 * writes each unit at most once after an erase, as chips with error correction require.
 */
#ifndef FLASH_H
#define FLASH_H

#include <stdbool.h>
#include <stddef.h>
#include <stdint.h>

#define FLASH_SECTORS 2

/* The bytes of a sector: what one erase sets. */
#ifndef FLASH_SECTOR_SIZE
#define FLASH_SECTOR_SIZE 4096
#endif

/* The bytes of a unit: what one write clears. A power of two, at least 4. */
#ifndef FLASH_UNIT
#define FLASH_UNIT 8
#endif

/*
 * Returns the first byte of a sector. A unit whose write was cut off may read as anything, but reading it
 * must not stop the processor.
 */
const uint8_t *flash_sector(unsigned sector);

/* Erases a sector, and returns when it is erased. Returns false if the flash reports a fault. */
bool flash_erase(unsigned sector);

/*
 * Writes a unit at a place of a sector, which is divisible by FLASH_UNIT, and returns when it is written.
 * Returns false if the flash reports a fault.
 */
bool flash_write(unsigned sector, size_t at, const uint8_t unit[FLASH_UNIT]);

#endif
