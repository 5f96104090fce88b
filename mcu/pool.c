/*
 * SPDX-License-Identifier: Apache-2.0 OR MIT
 * Copyright 2026 The Gihandop authors
 *
 * The pool of gihandop_pool.h. Its three functions below have the meaning of malloc, realloc and free, but
 * each block is aligned to 16 octets, which not each malloc of a microcontroller does. mcu/heap.ll calls them.
 *
 * The blocks follow each other without gaps: 8 octets in front, then the octets of the block. A block is taken
 * from the first free one that is large enough. Free blocks that follow each other become one when
 * gh_pool_take or gh_pool_resize passes them. Nothing here checks that a block is intact: what writes beyond
 * its own block breaks the pool.
 */
#include "gihandop_pool.h"

#include <stdbool.h>
#include <stdint.h>
#include <string.h>

#define UNIT 16u
#define FRONT ((uint32_t)sizeof(struct front))

/* In front of each block. */
struct front {
    uint32_t size; /* in octets, with this front: a multiple of UNIT */
    uint32_t is_taken;
};

/* The names that mcu/heap.ll calls. */
void *gh_pool_take(size_t octets);
void *gh_pool_resize(void *at, size_t octets);
void gh_pool_give_back(void *at);

/* The pool, its first front, 8 octets before an address that is divisible by 16, and the place behind the last block. */
static uint8_t *pool, *first, *end;
static struct gh_pool_counts counts;

void gh_pool_begin(void *memory, size_t octets)
{
    size_t skipped = (UNIT - FRONT - (uintptr_t)memory % UNIT) % UNIT;
    size_t most = INT32_MAX;
    size_t size = octets > skipped ? octets - skipped : 0;

    size = (size < most ? size : most) / UNIT * UNIT;
    pool = memory;
    first = pool + (size != 0 ? skipped : 0);
    end = first + size;
    counts = (struct gh_pool_counts){.size = octets};
    if (size != 0)
        *(struct front *)(void *)first = (struct front){(uint32_t)size, false};
}

struct gh_pool_counts gh_pool_count(void)
{
    return counts;
}

static struct front *front_at(uint8_t *at)
{
    return (struct front *)(void *)at;
}

static uint8_t *after(struct front *it)
{
    return (uint8_t *)it + it->size;
}

/* Adds the free blocks that follow to one, which is free or becomes larger. */
static void join(struct front *it)
{
    while (after(it) != end && !front_at(after(it))->is_taken)
        it->size += front_at(after(it))->size;
}

/* Makes what a block has beyond a size a free block. */
static void cut(struct front *it, uint32_t size)
{
    uint32_t left = it->size - size;

    if (left == 0)
        return;
    it->size = size;
    *front_at(after(it)) = (struct front){left, false};
}

/* Returns the size of a block for so many octets, with its front, or 0 if no pool has so many. */
static uint32_t size_for(size_t octets)
{
    return octets < INT32_MAX - UNIT ? ((uint32_t)octets + FRONT + UNIT - 1) / UNIT * UNIT : 0;
}

static void count(struct front *it)
{
    size_t reached = (size_t)(after(it) - pool);

    counts.most = counts.taken > counts.most ? counts.taken : counts.most;
    counts.reached = reached > counts.reached ? reached : counts.reached;
}

static void *refuse(void)
{
    counts.refused++;
    return NULL;
}

void *gh_pool_take(size_t octets)
{
    uint32_t size = size_for(octets);

    for (uint8_t *at = first; at != end && size != 0; at = after(front_at(at))) {
        struct front *it = front_at(at);

        if (it->is_taken)
            continue;
        join(it);
        if (it->size < size)
            continue;
        cut(it, size);
        it->is_taken = true;
        counts.blocks++;
        counts.taken += size;
        count(it);
        return it + 1;
    }
    return refuse();
}

void gh_pool_give_back(void *at)
{
    struct front *it = (struct front *)at - 1;

    it->is_taken = false;
    counts.blocks--;
    counts.taken -= it->size;
}

void *gh_pool_resize(void *at, size_t octets)
{
    struct front *it = (struct front *)at - 1;
    uint32_t size = size_for(octets), had = it->size;
    void *other;

    if (size == 0)
        return refuse();
    join(it);
    if (it->size >= size) {
        cut(it, size);
        counts.taken = counts.taken - had + size;
        count(it);
        return at;
    }
    cut(it, had);
    other = gh_pool_take(octets);
    if (other != NULL) {
        memcpy(other, at, had - FRONT);
        gh_pool_give_back(at);
    }
    return other;
}
