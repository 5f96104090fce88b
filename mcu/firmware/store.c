/*
 * SPDX-License-Identifier: Apache-2.0 OR MIT
 * Copyright 2026 The Gihandop authors
 *
 * Records of store.h. A record has a head, both texts, and a tail in units of its own, which is written last:
 *
 *     mark, number, length of the values, length of the rows      4 bytes each, in the order of the processor
 *     values, rows
 *     ones up to the end of a unit
 *     the CRC-32 of all that is before the ones                   4 bytes
 *     ones up to the end of a unit
 *
 * The newest record is the one with the largest number. Numbers never begin again: no flash endures 2^31 records.
 *
 * A record whose write was cut off or has failed may read as torn now, and as whole at a later start. It is behind
 * the newest one, and its number is larger by one. So the first save after a start or a failure writes in any case,
 * and begins the other sector, by a number that is larger by two.
 */
#include "store.h"

#include <string.h>

/* Begins each record. Neither a text nor an erased sector has such bytes. */
#define MARK 0x8D53E700u
/* No place for a record. */
#define NONE ((size_t)FLASH_SECTOR_SIZE)

struct head {
    uint32_t mark;
    uint32_t number;
    uint32_t values_length;
    uint32_t rows_length;
};
_Static_assert(sizeof(struct head) == 16, "the head of STORE_MOST");
_Static_assert(FLASH_SECTOR_SIZE % FLASH_UNIT == 0, "a sector has whole units");
_Static_assert(FLASH_UNIT >= 4 && (FLASH_UNIT & (FLASH_UNIT - 1)) == 0, "a unit has the sum of a record");

/* A whole record in the flash. */
struct record {
    unsigned sector;
    size_t at;
    size_t end;
    struct head head;
};

/* The newest whole record. Before the first one its number is 0, and its texts are empty. */
static struct record newest;
/* The place in its sector for the next record. NONE after a start and after a failure: then the next record begins
   the other sector. */
static size_t place;
static uint32_t count;

static size_t in_units(size_t length)
{
    return (length + FLASH_UNIT - 1) / FLASH_UNIT * FLASH_UNIT;
}

/* Returns the bytes of a record before its tail, without the ones. */
static size_t length_of(const struct head *head)
{
    return sizeof *head + head->values_length + head->rows_length;
}

/* Returns the CRC-32 of bytes after those of an earlier sum, or of 0: IEEE 802.3, 3.2.9, as in zlib. */
static uint32_t crc32(uint32_t sum, const uint8_t *bytes, size_t length)
{
    sum = ~sum;
    for (size_t at = 0; at < length; at++) {
        sum ^= bytes[at];
        for (int bit = 0; bit < 8; bit++)
            sum = sum >> 1 ^ ((sum & 1) != 0 ? 0xEDB88320u : 0);
    }
    return ~sum;
}

/* Reads the record at a place, and returns true if it is whole. */
static bool read_record(unsigned sector, size_t at, struct record *record)
{
    const uint8_t *from = flash_sector(sector) + at;
    const size_t left = FLASH_SECTOR_SIZE - at, least = sizeof record->head + FLASH_UNIT;
    uint32_t sum;

    if (left < least)
        return false;
    memcpy(&record->head, from, sizeof record->head);
    if (record->head.mark != MARK || record->head.values_length > left - least
        || record->head.rows_length > left - least - record->head.values_length)
        return false;
    /* `left` is divisible by FLASH_UNIT, so the tail fits too. */
    const size_t length = length_of(&record->head), tail = in_units(length);
    memcpy(&sum, from + tail, sizeof sum);
    record->sector = sector;
    record->at = at;
    record->end = at + tail + FLASH_UNIT;
    return sum == crc32(0, from, length);
}

void store_begin(void)
{
    struct record record;

    newest = (struct record){.sector = FLASH_SECTORS - 1, .head = {.number = 0}};
    place = NONE;
    count = 0;
    for (unsigned sector = 0; sector < FLASH_SECTORS; sector++)
        for (size_t at = 0; read_record(sector, at, &record); at = record.end)
            if (record.head.number > newest.head.number)
                newest = record;
}

struct store_texts store_texts(void)
{
    const uint8_t *texts = flash_sector(newest.sector) + newest.at + sizeof newest.head;

    return (struct store_texts){texts, newest.head.values_length, texts + newest.head.values_length,
                                newest.head.rows_length};
}

/* Writes bytes in units. Those that fill no unit wait for more of them. */
struct writer {
    unsigned sector;
    size_t at;
    uint8_t unit[FLASH_UNIT];
    size_t length;
    bool is_fine;
};

static void append(struct writer *writer, const uint8_t *bytes, size_t length)
{
    for (size_t at = 0; at < length; at++) {
        writer->unit[writer->length++] = bytes[at];
        if (writer->length < FLASH_UNIT)
            continue;
        writer->is_fine = writer->is_fine && flash_write(writer->sector, writer->at, writer->unit);
        writer->at += FLASH_UNIT;
        writer->length = 0;
    }
}

/* Ends a unit that has begun with ones. */
static void fill(struct writer *writer)
{
    static const uint8_t ones = 0xFF;

    while (writer->length != 0)
        append(writer, &ones, 1);
}

static bool write_record(unsigned sector, size_t at, const struct head *head, const struct store_texts *texts)
{
    struct writer writer = {.sector = sector, .at = at, .is_fine = true};
    const uint8_t *first = (const uint8_t *)head;
    uint32_t sum = crc32(0, first, sizeof *head);

    sum = crc32(sum, texts->values, texts->values_length);
    sum = crc32(sum, texts->rows, texts->rows_length);
    append(&writer, first, sizeof *head);
    append(&writer, texts->values, texts->values_length);
    append(&writer, texts->rows, texts->rows_length);
    fill(&writer);
    append(&writer, (const uint8_t *)&sum, sizeof sum);
    fill(&writer);
    return writer.is_fine;
}

/* Erases a sector, and reads whether it is erased. */
static bool erase(unsigned sector)
{
    if (!flash_erase(sector))
        return false;
    for (size_t at = 0; at < FLASH_SECTOR_SIZE; at++)
        if (flash_sector(sector)[at] != 0xFF)
            return false;
    return true;
}

static bool is_equal(const uint8_t *text, size_t length, const uint8_t *other, size_t other_length)
{
    return length == other_length && memcmp(text, other, length) == 0;
}

static bool is_saved(const struct store_texts *texts)
{
    const struct store_texts saved = store_texts();

    return is_equal(texts->values, texts->values_length, saved.values, saved.values_length)
        && is_equal(texts->rows, texts->rows_length, saved.rows, saved.rows_length);
}

bool store_save(struct store_texts texts)
{
    unsigned sector = newest.sector;
    size_t at = place;
    struct record written;

    if (texts.values_length > STORE_MOST || texts.rows_length > STORE_MOST - texts.values_length)
        return false;
    if (place != NONE && is_saved(&texts))
        return true;
    struct head head = {MARK, newest.head.number + 1, (uint32_t)texts.values_length, (uint32_t)texts.rows_length};
    place = NONE;
    if (at > FLASH_SECTOR_SIZE - in_units(length_of(&head)) - FLASH_UNIT) {
        sector = FLASH_SECTORS - 1 - sector;
        at = 0;
        head.number++;
        if (!erase(sector))
            return false;
    }
    if (!write_record(sector, at, &head, &texts) || !read_record(sector, at, &written)
        || memcmp(&head, &written.head, sizeof head) != 0)
        return false;
    newest = written;
    place = written.end;
    count++;
    return true;
}

uint32_t store_count(void)
{
    return count;
}
