/*
 * Measures how much memory a host takes, with the pool of mcu/pool.c, and tries each smaller pool:
 *
 *     pools TABLE KEYS
 *
 * It prints a line for 1, 2, 4 and 8 connections: what is taken after gh_open, the most while it
 * runs, the size of a pool that suffices, and the number of blocks.
 */
#include "controller.h"
#include "gihandop_pool.h"

#include <stdio.h>

enum { STEP = 1008 };

static _Alignas(16) uint8_t memory[1 << 18];
static struct file table, keys;

/* Opens a host with a pool of so many octets. */
static uint32_t open_in(size_t octets, struct gh_host *host, size_t slots)
{
    gh_pool_begin(memory, octets);
    return begin_host(host, &table, &keys, NULL, slots);
}

static bool is_out_of_memory(uint32_t status)
{
    return status == GH_OUT_OF_MEMORY || status == GH_TABLE_OUT_OF_MEMORY || status == GH_KEYS_OUT_OF_MEMORY
        || status == GH_ROWS_OUT_OF_MEMORY;
}

/* A pool that is too small is refused, all of it is given back, and the next larger one can be
   used. */
static void try_smaller(size_t least, size_t slots)
{
    for (size_t octets = 0; octets < least; octets += STEP) {
        struct gh_host host = GH_HOST_INIT;
        uint32_t status = open_in(octets, &host, slots);
        struct gh_pool_counts counts = gh_pool_count();
        CHECK(is_out_of_memory(status) ? host.at == NULL : status == GH_DONE && gh_close(&host) == GH_DONE);
        CHECK(counts.refused > 0 || status == GH_DONE);
        counts = gh_pool_count();
        CHECK(counts.taken == 0 && counts.blocks == 0);
    }
}

static void measure(size_t slots)
{
    struct gh_host host = GH_HOST_INIT;
    struct gh_pool_counts counts;
    CHECK(open_in(sizeof memory, &host, slots) == GH_DONE);
    counts = gh_pool_count();
    CHECK(gh_close(&host) == GH_DONE);
    CHECK(gh_pool_count().taken == 0);
    CHECK(open_in(counts.reached, &host, slots) == GH_DONE);
    CHECK(gh_close(&host) == GH_DONE);
    /* The C library of some boards has no %zu. */
    printf("pool %lu %lu %lu %lu %lu\n", (unsigned long)slots, (unsigned long)counts.taken, (unsigned long)counts.most,
           (unsigned long)counts.reached, (unsigned long)counts.blocks);
    try_smaller(counts.reached, slots);
}

int main(int argc, char **argv)
{
    if (argc != 3)
        return 64;
    read_file(argv[1], &table);
    read_file(argv[2], &keys);
    for (size_t slots = 1; slots <= 8; slots *= 2)
        measure(slots);
    return result();
}
