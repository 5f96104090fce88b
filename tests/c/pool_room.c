/*
 * Gives the pool of mcu/pool.c its memory before main, for programs that know nothing of it. Its
 * octets are not 0, as on a board that has just started.
 */
#include "gihandop_pool.h"

#include <stdint.h>
#include <string.h>

__attribute__((constructor)) static void begin(void)
{
    static _Alignas(16) uint8_t memory[1 << 20];
    memset(memory, 0xA5, sizeof memory);
    gh_pool_begin(memory, sizeof memory);
}
