/*
 * Tries mcu/firmware/store.c over the emulated flash, on this PC: the power is cut at each write and erase,
 * before it, inside it and behind it, and again at each one after the next start; each write and erase fails.
 * What is read after a start is what was saved last, or what was being saved.
 *
 *     flash [SEED]
 */
#include "emulated_flash.h"
#include "store.h"

#include <setjmp.h>
#include <stdio.h>
#include <stdlib.h>
#include <string.h>

enum { SAVES = 14, LATER = 3, TEXT = 1200 };

struct texts {
    uint8_t values[TEXT], rows[TEXT];
    size_t values_length, rows_length;
};

struct emulated_flash emulated_flash;
static jmp_buf start;
static unsigned long checks, failed, cuts;
static uint32_t chances;

/* What was saved last, and what is being saved. */
static struct texts saved, tried;
static bool is_trying;

static void check(bool is_so, const char *what)
{
    checks++;
    if (is_so)
        return;
    failed++;
    if (failed < 20)
        printf("failed: %s (cut %u at %u of %u, fault %u at %u, seed %u)\n", what, (unsigned)emulated_flash.cut,
               (unsigned)emulated_flash.cut_at, (unsigned)emulated_flash.count, (unsigned)emulated_flash.fault,
               (unsigned)emulated_flash.fault_at, (unsigned)emulated_flash.seed);
}

_Noreturn void emulated_flash_cut(void)
{
    cuts++;
    longjmp(start, 1);
}

_Noreturn void emulated_flash_broken(const char *rule)
{
    printf("the flash: %s (write or erase %u)\n", rule, (unsigned)emulated_flash.count);
    exit(1);
}

static uint32_t chance(uint32_t below)
{
    chances = chances * 1664525u + 1013904223u;
    return (chances >> 8) % below;
}

static size_t make(uint8_t *text, size_t most)
{
    const size_t length = chance(4) == 0 ? 0 : chance((uint32_t)most + 1);
    for (size_t at = 0; at < length; at++)
        text[at] = (uint8_t)(' ' + chance(95));
    return length;
}

static struct store_texts as_texts(const struct texts *it)
{
    return (struct store_texts){it->values, it->values_length, it->rows, it->rows_length};
}

static bool is_found(const struct texts *due)
{
    const struct store_texts it = store_texts();
    return it.values_length == due->values_length && memcmp(it.values, due->values, it.values_length) == 0
        && it.rows_length == due->rows_length && memcmp(it.rows, due->rows, it.rows_length) == 0;
}

/* Starts, and looks at what is there. From then on it counts as saved. */
static void begin(void)
{
    emulated_flash.count = 0;
    store_begin();
    check(is_found(&saved) || (is_trying && is_found(&tried)), "after a start something else is there");
    if (is_trying && is_found(&tried))
        saved = tried;
    is_trying = false;
}

/* Saves some texts. Some are as before, and most are short. */
static void save(void)
{
    const size_t most = chance(3) == 0 ? TEXT : 60;
    if (chance(6) != 0) {
        tried.values_length = make(tried.values, most);
        tried.rows_length = make(tried.rows, most);
    } else {
        tried = saved;
    }
    is_trying = true;
    const uint32_t before = emulated_flash.count, fault_at = emulated_flash.fault_at;
    const bool is_saved = store_save(as_texts(&tried));
    const bool is_failed = before < fault_at && fault_at <= emulated_flash.count;
    check(is_saved != is_failed, "it cannot save, or it saves in spite of a fault");
    if (!is_saved)
        return;
    check(is_found(&tried), "after a save something else is there");
    saved = tried;
    is_trying = false;
}

/* What the flash has at the first start. */
enum first { FIRST_ERASED, FIRST_ZEROS, FIRST_RUBBISH, FIRST_COUNT };

static void make_first(enum first first)
{
    for (unsigned sector = 0; sector < FLASH_SECTORS; sector++)
        for (size_t at = 0; at < FLASH_SECTOR_SIZE; at++)
            emulated_flash.sectors[sector][at] =
                first == FIRST_ERASED ? 0xFF : first == FIRST_ZEROS ? 0 : (uint8_t)chance(256);
    memset(&saved, 0, sizeof saved);
    is_trying = false;
}

/* Plays saves, with the power cut at one of the first run, and at one of the second. Returns true if it was cut. */
static bool play(uint32_t seed, enum first first, enum cut cut, uint32_t cut_at, enum cut again, uint32_t again_at)
{
    static volatile int runs;
    runs = 0;
    chances = seed;
    make_first(first);
    emulated_flash.seed = seed + cut_at;
    if (setjmp(start) != 0)
        runs++;
    emulated_flash.cut = runs == 0 ? cut : again;
    emulated_flash.cut_at = runs == 0 ? cut_at : runs == 1 ? again_at : 0;
    begin();
    for (int count = 0; count < (runs == 0 ? SAVES : LATER); count++)
        save();
    /* A last start, after which all has to be there. */
    emulated_flash.cut_at = 0;
    begin();
    return runs > 0;
}

/* Each write and erase, and each of those after the next start. Those after it are tried at some of the first. */
static void cut_all(uint32_t seed, enum first first)
{
    for (uint32_t at = 1;; at++) {
        bool is_cut = false;
        for (int cut = CUT_BEFORE; cut <= CUT_BEHIND; cut++) {
            is_cut = play(seed, first, (enum cut)cut, at, CUT_BEFORE, 0);
            for (uint32_t again_at = 1; at % 29 == seed % 29 && again_at < 40; again_at++)
                play(seed, first, (enum cut)cut, at, (enum cut)(again_at % 3), again_at);
        }
        if (!is_cut)
            return;
    }
}

/* Saves so many times, while the write or erase with a number fails. Returns true if one has that number. */
static bool fail(uint32_t seed, enum fault fault, uint32_t at, int saves)
{
    chances = seed;
    make_first(FIRST_RUBBISH);
    emulated_flash.cut_at = 0;
    emulated_flash.fault = (uint32_t)fault;
    emulated_flash.fault_at = at;
    begin();
    for (int number = 0; number < saves; number++) {
        save();
        /* A client whose write was not saved writes the opposite. */
        if (is_trying && chance(2) == 0) {
            is_trying = !store_save(as_texts(&saved));
            check(!is_trying, "it cannot save a second time");
        }
    }
    const bool is_failed = emulated_flash.count >= at;
    begin();
    emulated_flash.fault_at = 0;
    save();
    begin();
    return is_failed;
}

/* Each write and erase fails, and there is a start after any number of saves. */
static void fail_all(uint32_t seed)
{
    for (int fault = FAULT_DOES_NOTHING; fault <= FAULT_IS_SILENT; fault++)
        for (int saves = 1; saves <= SAVES; saves++)
            for (uint32_t at = 1; fail(seed, (enum fault)fault, at, saves);)
                at += saves < SAVES ? 5 : 1;
}

/* Texts up to the largest length, and beyond it. */
static void fill_all(void)
{
    static uint8_t text[FLASH_SECTOR_SIZE];
    memset(text, 'x', sizeof text);
    make_first(FIRST_ERASED);
    begin();
    for (size_t length = STORE_MOST - 20; length < STORE_MOST + 20; length++)
        for (size_t part = 0; part <= length; part += length / 3) {
            const struct store_texts texts = {text, part, text + part, length - part};
            const bool is_saved = store_save(texts);
            check(is_saved == (length <= STORE_MOST), "a text at the limit");
            const struct store_texts now = store_texts();
            check(!is_saved || (now.values_length == part && now.rows_length == length - part), "its length");
        }
    const struct store_texts wide = {text, SIZE_MAX, text, SIZE_MAX};
    check(!store_save(wide), "lengths whose sum is none");
    store_begin();
    check(store_texts().values_length + store_texts().rows_length == STORE_MOST, "the last of them");
}

/* Returns the length of a record whose head and texts have so many bytes. */
static size_t length_of(size_t bytes)
{
    return (bytes + FLASH_UNIT - 1) / FLASH_UNIT * FLASH_UNIT + FLASH_UNIT;
}

/* Records that somebody has changed: of one that is whole, each bit. */
static void change_all(void)
{
    static const uint8_t first[] = "10 fff1 00\n", second[] = "10 fff1 01\n", row[] = "public 00:11:22:33:44:55 11 1\n";
    make_first(FIRST_ERASED);
    begin();
    check(store_save((struct store_texts){first, sizeof first - 1, row, sizeof row - 1}), "the first");
    check(store_save((struct store_texts){second, sizeof second - 1, row, sizeof row - 1}), "the second");
    const size_t size = 16 + sizeof first - 1 + sizeof row - 1, record = length_of(size);
    for (size_t at = 0; at < size; at++)
        for (int bit = 0; bit < 8; bit++) {
            uint8_t *octet = &emulated_flash.sectors[0][record + at];
            *octet ^= (uint8_t)(1 << bit);
            store_begin();
            const struct store_texts it = store_texts();
            check(it.values_length == sizeof first - 1 && memcmp(it.values, first, sizeof first - 1) == 0,
                  "a changed record counts");
            *octet ^= (uint8_t)(1 << bit);
        }
    store_begin();
    check(memcmp(store_texts().values, second, sizeof second - 1) == 0, "the second again");
}

/* Heads of records with lengths that no sector has, at the begin of a sector and behind a record. */
static void lengthen_all(void)
{
    static const uint8_t text[] = "10 fff1 01\n";
    static const uint32_t lengths[] = {0, 1, STORE_MOST - 1, STORE_MOST, FLASH_SECTOR_SIZE, 1u << 16, 1u << 31,
                                       UINT32_MAX - 24, UINT32_MAX};
    const size_t behind = length_of(16 + sizeof text - 1);
    const size_t some = sizeof lengths / sizeof *lengths;
    for (size_t it = 0; it < 2 * some * some; it++) {
        make_first(FIRST_ERASED);
        begin();
        check(store_save((struct store_texts){text, sizeof text - 1, text, 0}), "a record");
        /* The same head, of a larger number. */
        uint8_t *other = &emulated_flash.sectors[it % 2][it % 2 == 0 ? behind : 0];
        memcpy(other, emulated_flash.sectors[0], 16);
        const uint32_t number = 1000;
        memcpy(other + 4, &number, 4);
        memcpy(other + 8, &lengths[it / 2 % some], 4);
        memcpy(other + 12, &lengths[it / 2 / some], 4);
        store_begin();
        check(store_texts().values_length == sizeof text - 1 && store_texts().rows_length == 0, "a head counts");
    }
}

int main(int count, char **words)
{
    const uint32_t seed = count > 1 ? (uint32_t)strtoul(words[1], NULL, 10) : 1;

    for (int first = 0; first < FIRST_COUNT; first++)
        cut_all(seed, (enum first)first);
    fail_all(seed);
    emulated_flash.fault_at = 0;
    fill_all();
    change_all();
    lengthen_all();
    printf("%lu cuts, %lu checks, %lu failed\n", cuts, checks, failed);
    return failed != 0;
}
