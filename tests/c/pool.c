/*
 * Plays the pool of mcu/pool.c: fills it, empties it, resizes blocks, and does 200,000 acts at random. What is in
 * a block has to stay, blocks must not overlap, and all counts are worked out here too.
 *
 *     pool SEED
 */
#include "gihandop_pool.h"

#include <stdbool.h>
#include <stdint.h>
#include <stdio.h>
#include <stdlib.h>
#include <string.h>

void *gh_pool_take(size_t octets);
void *gh_pool_resize(void *at, size_t octets);
void gh_pool_give_back(void *at);

enum { SIZE = 8192, BLOCKS = 64, ACTS = 200000 };

struct block {
    uint8_t *at, filled;
    size_t size;
};

static unsigned checks, failed;
static _Alignas(16) uint8_t memory[SIZE + 16];
static struct block blocks[BLOCKS];

#define CHECK(test) (checks++, (test) || (failed++, printf("%d: %s\n", __LINE__, #test)))

/* The size of a block in the pool. */
static size_t whole(size_t octets)
{
    return (octets + 8 + 15) / 16 * 16;
}

static bool is_whole(const struct block *it, size_t count)
{
    for (size_t at = 0; at < count; at++)
        if (it->at[at] != it->filled)
            return false;
    return true;
}

static void fill(struct block *it)
{
    memset(it->at, it->filled = (uint8_t)rand(), it->size);
}

static void check_block(const struct block *it)
{
    CHECK((uintptr_t)it->at % 16 == 0);
    CHECK(it->at >= memory && it->at + it->size <= memory + SIZE);
    CHECK((uintptr_t)(it->at - memory) + it->size <= gh_pool_count().reached);
}

static void check_counts(size_t most)
{
    size_t taken = 0, count = 0;
    for (int at = 0; at < BLOCKS; at++)
        if (blocks[at].at != NULL)
            taken += whole(blocks[at].size), count++;
    struct gh_pool_counts counts = gh_pool_count();
    CHECK(counts.size == SIZE);
    CHECK(counts.taken == taken);
    CHECK(counts.blocks == count);
    CHECK(counts.most >= taken && counts.most <= most && counts.most <= counts.reached);
    CHECK(counts.reached <= SIZE);
}

/* The guards behind the pool stay as they are. */
static void check_guards(void)
{
    for (int at = SIZE; at < SIZE + 16; at++)
        CHECK(memory[at] == 0xA5);
}

static void check_ends(void)
{
    CHECK(gh_pool_take(1) == NULL); /* no pool yet */
    CHECK(gh_pool_count().refused == 1 && gh_pool_count().size == 0);
    for (size_t size = 0; size < 64; size++)
        for (size_t skipped = 0; skipped < 16; skipped++) {
            gh_pool_begin(memory + skipped, size);
            size_t first = skipped <= 8 ? 8 - skipped : 24 - skipped;
            size_t fits = size > first ? (size - first) / 16 * 16 : 0;
            CHECK(gh_pool_take(fits) == NULL);
            if (fits == 0)
                continue;
            void *at = gh_pool_take(fits - 8);
            CHECK(at == memory + skipped + first + 8);
            CHECK(gh_pool_take(1) == NULL);
            CHECK(gh_pool_count().refused == 2 && gh_pool_count().reached == first + fits);
            gh_pool_give_back(at);
            CHECK(gh_pool_take(1) == at);
        }
    gh_pool_begin(memory, SIZE);
    CHECK(gh_pool_take(SIZE_MAX) == NULL && gh_pool_take(SIZE_MAX - 8) == NULL && gh_pool_take(INT32_MAX) == NULL);
    CHECK(gh_pool_take(SIZE - 23) == NULL);
    void *all = gh_pool_take(SIZE - 24);
    CHECK(all == memory + 16);
    CHECK(gh_pool_resize(all, SIZE) == NULL && gh_pool_resize(all, SIZE_MAX) == NULL);
    CHECK(gh_pool_resize(all, 8) == all && gh_pool_count().taken == 16);
    CHECK(gh_pool_resize(all, SIZE - 24) == all && gh_pool_count().taken == SIZE - 16);
    CHECK(gh_pool_count().refused == 6 && gh_pool_count().blocks == 1);
    gh_pool_give_back(all);
    CHECK(gh_pool_count().taken == 0 && gh_pool_count().most == SIZE - 16 && gh_pool_count().reached == SIZE - 8);
}

/* A block that cannot be made larger in its place is moved, and one that cannot be moved stays. */
static void check_moves(void)
{
    gh_pool_begin(memory, SIZE);
    uint8_t *one = gh_pool_take(100), *two = gh_pool_take(100);
    memset(one, 1, 100), memset(two, 2, 100);
    uint8_t *moved = gh_pool_resize(one, 3000);
    CHECK(moved != one && moved[0] == 1 && moved[99] == 1 && two[0] == 2 && two[99] == 2);
    CHECK(gh_pool_resize(two, 100) == two && gh_pool_resize(two, 8000) == NULL);
    CHECK(two[0] == 2 && two[99] == 2 && moved[99] == 1 && gh_pool_count().blocks == 2);
    CHECK(gh_pool_take(100) == one);
}

static void play(void)
{
    size_t most = 0;
    gh_pool_begin(memory, SIZE);
    for (int act = 0; act < ACTS; act++) {
        struct block *it = &blocks[rand() % BLOCKS];
        size_t size = (size_t)rand() % (act % 7 == 0 ? 2000 : 200) + 1;
        if (it->at == NULL) {
            it->at = gh_pool_take(it->size = size);
            if (it->at != NULL)
                fill(it);
        } else if (rand() % 3 == 0) {
            uint8_t *at = gh_pool_resize(it->at, size);
            CHECK(is_whole(&(struct block){at != NULL ? at : it->at, it->filled, 0}, at != NULL && size < it->size ? size : it->size));
            if (at != NULL) {
                it->at = at, it->size = size;
                fill(it);
            }
        } else {
            CHECK(is_whole(it, it->size));
            gh_pool_give_back(it->at);
            it->at = NULL;
        }
        if (it->at != NULL)
            check_block(it);
        /* A block that is moved is there twice for a moment. */
        most = gh_pool_count().most > most ? gh_pool_count().most : most;
        if (act % 64 == 0)
            check_counts(most);
    }
    for (int at = 0; at < BLOCKS; at++)
        if (blocks[at].at != NULL) {
            CHECK(is_whole(&blocks[at], blocks[at].size));
            gh_pool_give_back(blocks[at].at);
        }
    CHECK(gh_pool_count().taken == 0 && gh_pool_count().blocks == 0);
    CHECK(gh_pool_count().refused > 0);
    CHECK(gh_pool_take(SIZE - 24) == memory + 16);
}

int main(int argc, char **argv)
{
    memset(memory + SIZE, 0xA5, 16);
    srand(argc > 1 ? (unsigned)atoi(argv[1]) : 1);
    check_ends();
    memset(memory + SIZE, 0xA5, 16);
    check_moves();
    play();
    check_guards();
    printf("%u checks, %u failed\n", checks, failed);
    return failed != 0;
}
