/*
 * Measures how much stack each function takes at most while another program runs, which the linker
 * has call the functions here (--wrap). At the end it prints lines like `stack gh_open 33016`.
 *
 * Before a call, what lies below the stack of the caller is painted. After it, the lowest octet
 * that was changed says how deep the stack was. A function that leaves a part of its stack as it
 * is can be deeper: then the paint is as it was, and nothing is seen.
 */
#include "gihandop.h"

#include <stdio.h>
#include <stdlib.h>

enum { PAINT = 0xA5, DEEP = 192 * 1024, FLAT = 16 * 1024 };

/* The function that paints or looks: both have the same frame, below that of the caller. */
__attribute__((noinline)) static uintptr_t look(size_t depth, bool is_painting)
{
    volatile uint8_t room[DEEP];
    size_t at = sizeof room - depth;
    if (is_painting)
        for (; at < sizeof room; at++)
            room[at] = PAINT;
    else
        while (at < sizeof room && room[at] == PAINT)
            at++;
    return (uintptr_t)(room + at);
}

/* The most octets that each function took. What it returns and took has names that no parameter
   has. */
#define MEASURED(name, depth, parameters, arguments)                                               \
    static size_t most_of_##name;                                                                  \
    static bool is_called_##name;                                                                  \
    uint32_t __real_##name parameters;                                                             \
    uint32_t __wrap_##name parameters;                                                             \
    uint32_t __wrap_##name parameters                                                              \
    {                                                                                              \
        uint32_t returned_;                                                                        \
        size_t taken_;                                                                             \
        is_called_##name = true;                                                                   \
        look(depth, true);                                                                         \
        returned_ = __real_##name arguments;                                                       \
        taken_ = (uintptr_t)__builtin_frame_address(0) - look(depth, false);                       \
        most_of_##name = taken_ > most_of_##name ? taken_ : most_of_##name;                        \
        return returned_;                                                                          \
    }

MEASURED(gh_open, DEEP,
         (struct gh_host *host, const uint8_t *table, size_t table_length, const uint8_t *keys, size_t keys_length,
          const uint8_t *rows, size_t rows_length, const uint8_t *values, size_t values_length,
          const struct gh_config *config, size_t *left_out),
         (host, table, table_length, keys, keys_length, rows, rows_length, values, values_length, config, left_out))
MEASURED(gh_explain, DEEP,
         (const uint8_t *table, size_t table_length, const uint8_t *keys, size_t keys_length, const uint8_t *rows,
          size_t rows_length, const uint8_t *values, size_t values_length, uint8_t *out, size_t room, size_t *count),
         (table, table_length, keys, keys_length, rows, rows_length, values, values_length, out, room, count))
MEASURED(gh_replace, DEEP, (struct gh_host *host, const uint8_t *table, size_t length), (host, table, length))
MEASURED(gh_close, FLAT, (struct gh_host *host), (host))
MEASURED(gh_take, FLAT, (struct gh_host *host, const uint8_t *octets, size_t length, size_t *used),
         (host, octets, length, used))
MEASURED(gh_next_out, FLAT, (struct gh_host *host, uint8_t *out, size_t room, size_t *count), (host, out, room, count))
MEASURED(gh_next_notice, FLAT, (struct gh_host *host, struct gh_notice *notice), (host, notice))
MEASURED(gh_tick, FLAT, (struct gh_host *host, uint64_t time), (host, time))
MEASURED(gh_update, FLAT, (struct gh_host *host, uint16_t handle, const uint8_t *value, size_t length),
         (host, handle, value, length))
MEASURED(gh_authorize, FLAT, (struct gh_host *host, uint16_t connection, uint64_t until), (host, connection, until))
MEASURED(gh_disconnect, FLAT, (struct gh_host *host, uint16_t connection), (host, connection))
MEASURED(gh_value, FLAT, (struct gh_host *host, uint16_t handle, uint8_t *out, size_t room, size_t *count),
         (host, handle, out, room, count))
MEASURED(gh_find, FLAT,
         (struct gh_host *host, const uint8_t *service, size_t service_length, const uint8_t *characteristic,
          size_t characteristic_length, uint16_t number, uint16_t *handle),
         (host, service, service_length, characteristic, characteristic_length, number, handle))
MEASURED(gh_rows_text, FLAT, (struct gh_host *host, uint8_t *out, size_t room, size_t *count), (host, out, room, count))
MEASURED(gh_values_text, FLAT, (struct gh_host *host, uint8_t all, uint8_t *out, size_t room, size_t *count),
         (host, all, out, room, count))
MEASURED(gh_deadline, FLAT, (struct gh_host *host, uint64_t *time), (host, time))
MEASURED(gh_connection, FLAT, (struct gh_host *host, size_t place, struct gh_connection *connection),
         (host, place, connection))
MEASURED(gh_text, FLAT, (uint32_t status, uint8_t *out, size_t room, size_t *count), (status, out, room, count))
MEASURED(gh_version, FLAT, (void), ())

#define PRINT(name)       \
    if (is_called_##name) \
    printf("stack " #name " %lu\n", (unsigned long)most_of_##name)

static void print(void)
{
    PRINT(gh_open);
    PRINT(gh_explain);
    PRINT(gh_replace);
    PRINT(gh_close);
    PRINT(gh_take);
    PRINT(gh_next_out);
    PRINT(gh_next_notice);
    PRINT(gh_tick);
    PRINT(gh_update);
    PRINT(gh_authorize);
    PRINT(gh_disconnect);
    PRINT(gh_value);
    PRINT(gh_find);
    PRINT(gh_rows_text);
    PRINT(gh_values_text);
    PRINT(gh_deadline);
    PRINT(gh_connection);
    PRINT(gh_text);
    PRINT(gh_version);
}

__attribute__((constructor)) static void begin(void)
{
    atexit(print);
}
