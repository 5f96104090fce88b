/*
 * Firmware that does all that a device needs, without a board: tools/sizes links it to learn how
 * much flash the library takes in it, and nobody runs it. The controller is two places in memory,
 * and so are the time and the flash. The table and the keys are octets of the program, by the
 * macros TABLE and KEYS.
 */
#include "gihandop_pool.h"
#include "gihandop_serve.h"

#include <string.h>

#define OCTETS_OF(name, path)                                                                                   \
    __asm__(".section .rodata." #name ",\"a\"\n.global " #name "\n" #name ":\n.incbin \"" path "\"\n"           \
            ".global " #name "_end\n" #name "_end:\n.previous\n");                                              \
    extern const uint8_t name[], name##_end[]

OCTETS_OF(table, TABLE);
OCTETS_OF(keys, KEYS);

int main(void);

static volatile uint8_t in, out;
static volatile uint64_t now;
static volatile bool is_open;
static uint8_t flash[4096];
static _Alignas(16) uint8_t memory[65536];
static struct gh_host host = GH_HOST_INIT;

static void heard(struct gh_server *server, const struct gh_notice *notice)
{
    uint8_t value[1];
    size_t count;
    if (notice->kind == GH_WRITTEN)
        is_open = gh_value(server->host, notice->attribute, value, sizeof value, &count) == GH_DONE && value[0] == 1;
}

#ifndef SAVES_NOTHING
static bool save(struct gh_server *server)
{
    size_t rows, values;
    return gh_rows_text(server->host, flash, sizeof flash / 2, &rows) == GH_DONE
        && gh_values_text(server->host, 0, flash + sizeof flash / 2, sizeof flash / 2, &values) == GH_DONE;
}
#endif

static size_t send_some(struct gh_server *server, const uint8_t *octets, size_t length)
{
    (void)server;
    for (size_t at = 0; at < length; at++)
        out = octets[at];
    return length;
}

int main(void)
{
    /* GH_SERVER_INIT has no other number than the size. As the first value it would take 4 KB of flash. */
    static struct gh_server server;
    const struct gh_config config = GH_CONFIG_INIT;
    size_t left_out;
    gh_pool_begin(memory, sizeof memory);
    if (gh_open(&host, table, (size_t)(table_end - table), keys, (size_t)(keys_end - keys), flash, sizeof flash / 2,
                flash + sizeof flash / 2, sizeof flash / 2, &config, &left_out) != GH_DONE)
        return 1;
    server.size = sizeof server;
    server.host = &host;
    server.heard = heard;
#ifndef SAVES_NOTHING
    server.save = save;
#endif
    server.send = send_some;
    for (;;) {
        const uint8_t octet = in;
        size_t used;
        if (gh_serve(&server, now, &octet, 1, &used) != GH_DONE)
            return 1;
    }
}
