/*
 * SPDX-License-Identifier: Apache-2.0 OR MIT
 * Copyright 2026 The Gihandop authors
 *
 * The flash of emulated_flash.h. It refuses what a chip would do wrongly without a word: a write to a unit
 * that is not erased, and one at a place that begins no unit.
 */
#include "emulated_flash.h"

#define FLASH (&emulated_flash)

/* Returns a random byte, by the generator "xorshift32" of G. Marsaglia (Journal of Statistical Software 8, 14). */
static uint8_t chance(void)
{
    uint32_t it = FLASH->seed != 0 ? FLASH->seed : 1;

    it ^= it << 13;
    it ^= it >> 17;
    it ^= it << 5;
    FLASH->seed = it;
    return (uint8_t)(it >> 8);
}

/* Makes bytes those of `after`, or ones if it is NULL. If it is masked, each bit that changes does so by chance. */
static void set(uint8_t *bytes, const uint8_t *after, size_t length, bool is_masked)
{
    for (size_t at = 0; at < length; at++) {
        const uint8_t changed = bytes[at] ^ (after != NULL ? after[at] : 0xFF);
        bytes[at] ^= is_masked ? changed & chance() : changed;
    }
}

/* Does what set does, unless the power is cut or there is a fault. */
static bool change(uint8_t *bytes, const uint8_t *after, size_t length)
{
    FLASH->count++;
    if (FLASH->count == FLASH->cut_at) {
        if (FLASH->cut != CUT_BEFORE)
            set(bytes, after, length, FLASH->cut == CUT_INSIDE);
        emulated_flash_cut();
    }
    if (FLASH->count == FLASH->fault_at && FLASH->fault == FAULT_IS_SILENT) {
        bytes[chance() % length] ^= 1;
        return true;
    }
    if (FLASH->count == FLASH->fault_at && FLASH->fault == FAULT_DOES_NOTHING)
        return false;
    set(bytes, after, length, false);
    return FLASH->count != FLASH->fault_at;
}

const uint8_t *flash_sector(unsigned sector)
{
    if (sector >= FLASH_SECTORS)
        emulated_flash_broken("there is no such sector");
    return FLASH->sectors[sector];
}

bool flash_erase(unsigned sector)
{
    if (sector >= FLASH_SECTORS)
        emulated_flash_broken("an erase of no sector");
    return change(FLASH->sectors[sector], NULL, FLASH_SECTOR_SIZE);
}

bool flash_write(unsigned sector, size_t at, const uint8_t unit[FLASH_UNIT])
{
    if (sector >= FLASH_SECTORS || at % FLASH_UNIT != 0 || at > FLASH_SECTOR_SIZE - FLASH_UNIT)
        emulated_flash_broken("a write at a place that begins no unit");
    for (size_t i = 0; i < FLASH_UNIT; i++)
        if (FLASH->sectors[sector][at + i] != 0xFF)
            emulated_flash_broken("a write to a unit that is not erased");
    return change(FLASH->sectors[sector] + at, unit, FLASH_UNIT);
}
