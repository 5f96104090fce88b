/*
 * SPDX-License-Identifier: Apache-2.0 OR MIT
 * Copyright 2026 The Gihandop authors
 *
 * Saves the values and the rows of a host in the flash of flash.h. If the power fails at any moment, the
 * next start has the texts that store_save has returned true for, or those that were being saved.
 *
 * Each save is a record, behind the one before it. If a sector is full, the next record begins the other
 * one, which is erased first. So one sector always has the newest whole record.
 */
#ifndef STORE_H
#define STORE_H

#include "flash.h"

/* What gh_values_text and gh_rows_text return. A length of 0 is a text without bytes. */
struct store_texts {
    const uint8_t *values;
    size_t values_length;
    const uint8_t *rows;
    size_t rows_length;
};

/* The most bytes of both texts: a sector without the head and the tail of a record. */
#define STORE_MOST ((size_t)(FLASH_SECTOR_SIZE - 16 - FLASH_UNIT))

/* Finds the newest whole record. Call it once, at the start. It writes nothing. */
void store_begin(void);

/*
 * Returns the texts of the newest whole record, or empty ones if there is none. They are in the flash, and
 * are valid until the next call of store_save. No pointer is NULL.
 */
struct store_texts store_texts(void);

/*
 * Saves both texts, unless this run has saved them already. Returns true if the flash has them, after it
 * has read them back. If it returns false, the next start has these texts or those before.
 */
bool store_save(struct store_texts texts);

/* Returns how many records were written since store_begin. */
uint32_t store_count(void);

#endif
