/*
 * SPDX-License-Identifier: Apache-2.0 OR MIT
 * Copyright 2026 The Gihandop authors
 *
 * A ring of octets between one interrupt and the main program. One of them only puts, the other only takes.
 * Both counts run on without end: their difference is what is in the ring.
 */
#ifndef RING_H
#define RING_H

#include <stdatomic.h>
#include <stdbool.h>
#include <stddef.h>
#include <stdint.h>

/* A power of two, and at least a packet of H4 that the host sends: GH_LONGEST_PACKET. */
#define RING_SIZE 512u

struct ring {
    _Atomic uint32_t put;
    _Atomic uint32_t taken;
    uint8_t octets[RING_SIZE];
};

/* Returns how many octets are in the ring. The other side may change it at any time. */
static inline uint32_t ring_count(const struct ring *ring)
{
    return atomic_load_explicit(&ring->put, memory_order_acquire)
        - atomic_load_explicit(&ring->taken, memory_order_acquire);
}

/* Puts an octet. Returns false if the ring is full. */
static inline bool ring_put(struct ring *ring, uint8_t octet)
{
    const uint32_t put = atomic_load_explicit(&ring->put, memory_order_relaxed);

    if (ring_count(ring) == RING_SIZE)
        return false;
    ring->octets[put % RING_SIZE] = octet;
    atomic_store_explicit(&ring->put, put + 1, memory_order_release);
    return true;
}

/* Takes an octet. Returns false if the ring is empty. */
static inline bool ring_take(struct ring *ring, uint8_t *octet)
{
    const uint32_t taken = atomic_load_explicit(&ring->taken, memory_order_relaxed);

    if (ring_count(ring) == 0)
        return false;
    *octet = ring->octets[taken % RING_SIZE];
    atomic_store_explicit(&ring->taken, taken + 1, memory_order_release);
    return true;
}

#endif
