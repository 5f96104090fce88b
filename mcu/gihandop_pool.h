/*
 * SPDX-License-Identifier: Apache-2.0 OR MIT
 * Copyright 2026 The Gihandop authors
 *
 * The memory of hosts on a microcontroller, which the archive of tools/mcu has in place of malloc. Firmware
 * gives it once, before the first gh_open:
 *
 *     static _Alignas(16) uint8_t memory[65536];
 *
 *     gh_pool_begin(memory, sizeof memory);
 *
 * gh_open and gh_replace take memory, and no other function takes any that it does not give back before it
 * returns. If the pool is too small, they return GH_OUT_OF_MEMORY, and give back what they took.
 *
 * As with gihandop.h, one call at a time, and none from an interrupt.
 */
#ifndef GIHANDOP_POOL_H
#define GIHANDOP_POOL_H

#include <stddef.h>

#ifdef __cplusplus
extern "C" {
#endif

/*
 * Makes these octets the pool, which is empty then: no host may be open. Of 2 GiB or more it takes less, and it
 * leaves out what is before the first address that is divisible by 16.
 */
void gh_pool_begin(void *memory, size_t octets);

/* What is in the pool, in octets. Each block counts with the 8 octets in front of it, rounded up to 16. */
struct gh_pool_counts {
    /* The whole pool. */
    size_t size;
    /* All blocks that are taken now. */
    size_t taken;
    /* The largest number of octets that were taken at once. */
    size_t most;
    /* The end of the highest block that was ever taken: a pool of this size suffices for the same calls. */
    size_t reached;
    /* How many blocks are taken now. */
    size_t blocks;
    /* How many times memory was refused. */
    size_t refused;
};

/* Returns the counts since gh_pool_begin. */
struct gh_pool_counts gh_pool_count(void);

#ifdef __cplusplus
}
#endif

#endif
