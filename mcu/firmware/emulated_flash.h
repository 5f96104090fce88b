/*
 * SPDX-License-Identifier: Apache-2.0 OR MIT
 * Copyright 2026 The Gihandop authors
 *
 * A flash for tests and for the emulator: memory with the rules of flash.h, whose power can be cut at any
 * write or erase. On the emulated board a file is behind this memory, so it survives a start.
 */
#ifndef EMULATED_FLASH_H
#define EMULATED_FLASH_H

#include "flash.h"

/* What a write or an erase has done when the power is cut at it. */
enum cut {
    /* Nothing. */
    CUT_BEFORE = 0,
    /* A part of it: any bits that it changes have changed. */
    CUT_INSIDE = 1,
    /* All of it, and its caller does not know. */
    CUT_BEHIND = 2
};

/* What a write or an erase that fails has done. */
enum fault { FAULT_DOES_NOTHING = 0, FAULT_DOES_ALL = 1, FAULT_IS_SILENT = 2 };

struct emulated_flash {
    uint8_t sectors[FLASH_SECTORS][FLASH_SECTOR_SIZE];
    /* The power is cut at the write or erase with this number, from 1; 0 for never. */
    uint32_t cut_at;
    /* An enum cut. */
    uint32_t cut;
    /* Chooses the bits of CUT_INSIDE. */
    uint32_t seed;
    /* The write or erase with this number fails; 0 for none. */
    uint32_t fault_at;
    /* An enum fault. */
    uint32_t fault;
    /* How many writes and erases there were. A test begins with 0. */
    uint32_t count;
};

/* The board, or the test, says where it is. */
extern struct emulated_flash emulated_flash;

/* The board, or the test, ends: the power is gone. */
_Noreturn void emulated_flash_cut(void);

/* The board, or the test, ends: a rule of flash.h is broken. */
_Noreturn void emulated_flash_broken(const char *rule);

#endif
