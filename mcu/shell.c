/*
 * SPDX-License-Identifier: Apache-2.0 OR MIT
 * Copyright 2026 The Gihandop authors
 *
 * The functions of gihandop.h on a processor with addresses of 32 bits. There a size_t has 32 bits, and a
 * pointer in memory 4 octets. The library was compiled for 64 bits and then rewritten (tools/rewriting.py): its
 * numbers of type size_t have 64 bits, and its pointers in memory take 8 octets, of which the upper four
 * are 0. So its functions have other names here, gh64_*, and this file calls each of them with copies of
 * what is in memory. Numbers that are returned fit 32 bits, since they count octets in memory.
 *
 * If a structure of the caller is smaller than that of this header, its other fields are not read, and the
 * library is passed a size of 0: it then refuses it as it refuses any that is too small.
 */
#include "gihandop.h"

#include <string.h>

#ifdef NOT_PROVED
/* What gh_version_text asks for. tools/release and `make install` look for these words. */
const char gh_not_proved[] = "(not proved)";
#endif

/* A size_t of the library. Some compilers align a uint64_t to 4 octets. */
typedef uint64_t wide __attribute__((aligned(8)));

struct host64 {
    void *at;
    uint32_t upper;
} __attribute__((aligned(8)));

struct config64 {
    wide size, slots;
    uint16_t rx_mtu;
    uint8_t is_random, address[6], advertising_length, advertising[31];
};

struct notice64 {
    wide size;
    uint8_t kind, bits, reason, key_size;
    bool authenticated, secure;
    uint8_t address_kind, address[6];
    uint16_t connection, attribute;
};

struct connection64 {
    wide size;
    uint16_t handle, mtu;
    uint8_t address_kind, address[6], key_size;
    bool authenticated, secure, ending;
    wide authorized_until, ordinal, heard;
    uint8_t slot;
};

/* The layouts of the library, and what is copied at once. */
#define AT(type, field, place) _Static_assert(offsetof(struct type, field) == (place), #type " " #field)
_Static_assert(sizeof(void *) == 4 && sizeof(size_t) == 4, "a processor with addresses of 32 bits");
_Static_assert(sizeof(struct host64) == 8, "host64");
_Static_assert(sizeof(struct config64) == 64, "config64");
_Static_assert(sizeof(struct notice64) == 32, "notice64");
_Static_assert(sizeof(struct connection64) == 56, "connection64");
AT(config64, rx_mtu, 16);
AT(config64, advertising, 26);
AT(notice64, kind, 8);
AT(notice64, connection, 22);
AT(connection64, handle, 8);
AT(connection64, authorized_until, 24);
AT(connection64, slot, 48);

uint32_t gh64_open(struct host64 *, const uint8_t *, uint64_t, const uint8_t *, uint64_t, const uint8_t *,
                   uint64_t, const uint8_t *, uint64_t, const struct config64 *, wide *);
uint32_t gh64_explain(const uint8_t *, uint64_t, const uint8_t *, uint64_t, const uint8_t *, uint64_t,
                      const uint8_t *, uint64_t, uint8_t *, uint64_t, wide *);
uint32_t gh64_close(struct host64 *);
uint32_t gh64_take(struct host64 *, const uint8_t *, uint64_t, wide *);
uint32_t gh64_next_out(struct host64 *, uint8_t *, uint64_t, wide *);
uint32_t gh64_update(struct host64 *, uint16_t, const uint8_t *, uint64_t);
uint32_t gh64_authorize(struct host64 *, uint16_t, uint64_t);
uint32_t gh64_disconnect(struct host64 *, uint16_t);
uint32_t gh64_tick(struct host64 *, uint64_t);
uint32_t gh64_replace(struct host64 *, const uint8_t *, uint64_t);
uint32_t gh64_value(struct host64 *, uint16_t, uint8_t *, uint64_t, wide *);
uint32_t gh64_find(struct host64 *, const uint8_t *, uint64_t, const uint8_t *, uint64_t, uint16_t,
                   uint16_t *);
uint32_t gh64_rows_text(struct host64 *, uint8_t *, uint64_t, wide *);
uint32_t gh64_values_text(struct host64 *, uint8_t, uint8_t *, uint64_t, wide *);
uint32_t gh64_deadline(struct host64 *, wide *);
uint32_t gh64_connection(struct host64 *, uint64_t, struct connection64 *);
uint32_t gh64_next_notice(struct host64 *, struct notice64 *);
uint32_t gh64_text(uint32_t, uint8_t *, uint64_t, wide *);
uint32_t gh64_version(void);

/* Calls a function of the library with a copy of *host, and returns its status. */
#define ASK(function, ...)                                 \
    struct host64 host64 = {host->at, 0};                  \
    uint32_t status = function(&host64, ##__VA_ARGS__);    \
    host->at = host64.at

uint32_t gh_open(struct gh_host *host, const uint8_t *table, size_t table_length, const uint8_t *keys,
                 size_t keys_length, const uint8_t *rows, size_t rows_length, const uint8_t *values,
                 size_t values_length, const struct gh_config *config, size_t *left_out)
{
    struct config64 config64 = {.size = 0};
    wide left = 0;

    if (config->size >= sizeof *config) {
        config64.size = sizeof config64;
        config64.slots = config->slots;
        config64.rx_mtu = config->rx_mtu;
        config64.is_random = config->is_random;
        config64.advertising_length = config->advertising_length;
        memcpy(config64.address, config->address, sizeof config64.address);
        memcpy(config64.advertising, config->advertising, sizeof config64.advertising);
    }
    ASK(gh64_open, table, table_length, keys, keys_length, rows, rows_length, values, values_length, &config64,
        &left);
    *left_out = (size_t)left;
    return status;
}

uint32_t gh_explain(const uint8_t *table, size_t table_length, const uint8_t *keys, size_t keys_length,
                    const uint8_t *rows, size_t rows_length, const uint8_t *values, size_t values_length,
                    uint8_t *out, size_t room, size_t *count)
{
    wide count64 = 0;
    uint32_t status = gh64_explain(table, table_length, keys, keys_length, rows, rows_length, values,
                                   values_length, out, room, &count64);

    *count = (size_t)count64;
    return status;
}

uint32_t gh_close(struct gh_host *host)
{
    ASK(gh64_close);
    return status;
}

uint32_t gh_take(struct gh_host *host, const uint8_t *octets, size_t length, size_t *used)
{
    wide used64 = 0;
    ASK(gh64_take, octets, length, &used64);
    *used = (size_t)used64;
    return status;
}

uint32_t gh_next_out(struct gh_host *host, uint8_t *out, size_t room, size_t *count)
{
    wide count64 = 0;
    ASK(gh64_next_out, out, room, &count64);
    *count = (size_t)count64;
    return status;
}

uint32_t gh_update(struct gh_host *host, uint16_t handle, const uint8_t *value, size_t length)
{
    ASK(gh64_update, handle, value, length);
    return status;
}

uint32_t gh_authorize(struct gh_host *host, uint16_t connection, uint64_t until)
{
    ASK(gh64_authorize, connection, until);
    return status;
}

uint32_t gh_disconnect(struct gh_host *host, uint16_t connection)
{
    ASK(gh64_disconnect, connection);
    return status;
}

uint32_t gh_tick(struct gh_host *host, uint64_t time)
{
    ASK(gh64_tick, time);
    return status;
}

uint32_t gh_replace(struct gh_host *host, const uint8_t *table, size_t length)
{
    ASK(gh64_replace, table, length);
    return status;
}

uint32_t gh_value(struct gh_host *host, uint16_t handle, uint8_t *out, size_t room, size_t *count)
{
    wide count64 = 0;
    ASK(gh64_value, handle, out, room, &count64);
    *count = (size_t)count64;
    return status;
}

uint32_t gh_find(struct gh_host *host, const uint8_t *service, size_t service_length,
                 const uint8_t *characteristic, size_t characteristic_length, uint16_t number, uint16_t *handle)
{
    ASK(gh64_find, service, service_length, characteristic, characteristic_length, number, handle);
    return status;
}

uint32_t gh_rows_text(struct gh_host *host, uint8_t *out, size_t room, size_t *count)
{
    wide count64 = 0;
    ASK(gh64_rows_text, out, room, &count64);
    *count = (size_t)count64;
    return status;
}

uint32_t gh_values_text(struct gh_host *host, uint8_t all, uint8_t *out, size_t room, size_t *count)
{
    wide count64 = 0;
    ASK(gh64_values_text, all, out, room, &count64);
    *count = (size_t)count64;
    return status;
}

uint32_t gh_deadline(struct gh_host *host, uint64_t *time)
{
    wide time64 = 0;
    ASK(gh64_deadline, &time64);
    *time = time64;
    return status;
}

uint32_t gh_connection(struct gh_host *host, size_t place, struct gh_connection *connection)
{
    struct connection64 it = {.size = connection->size < sizeof *connection ? 0 : sizeof it};
    ASK(gh64_connection, place, &it);
    if (status != GH_DONE)
        return status;
    connection->handle = it.handle;
    connection->mtu = it.mtu;
    connection->address_kind = it.address_kind;
    memcpy(connection->address, it.address, sizeof it.address);
    connection->key_size = it.key_size;
    connection->authenticated = it.authenticated;
    connection->secure = it.secure;
    connection->ending = it.ending;
    connection->authorized_until = it.authorized_until;
    connection->ordinal = it.ordinal;
    connection->heard = it.heard;
    connection->slot = it.slot;
    return status;
}

uint32_t gh_next_notice(struct gh_host *host, struct gh_notice *notice)
{
    struct notice64 it = {.size = notice->size < sizeof *notice ? 0 : sizeof it};
    ASK(gh64_next_notice, &it);
    if (status != GH_DONE)
        return status;
    notice->kind = it.kind;
    notice->bits = it.bits;
    notice->reason = it.reason;
    notice->key_size = it.key_size;
    notice->authenticated = it.authenticated;
    notice->secure = it.secure;
    notice->address_kind = it.address_kind;
    memcpy(notice->address, it.address, sizeof it.address);
    notice->connection = it.connection;
    notice->attribute = it.attribute;
    return status;
}

uint32_t gh_text(uint32_t status, uint8_t *out, size_t room, size_t *count)
{
    wide count64 = 0;
    uint32_t answer = gh64_text(status, out, room, &count64);

    *count = (size_t)count64;
    return answer;
}

uint32_t gh_version(void)
{
    return gh64_version();
}
