/*
 * What the functions answer to calls that are refused, what they tell, and how a host stops.
 *
 *     calls TABLE KEYS PORCH         examples/door.toml, keys.toml and porch.toml
 */
#include "controller.h"

#include <stdlib.h>
#include <string.h>

static struct file table, keys, porch, none;
static uint8_t out[GH_LONGEST_PACKET];

static void refused_calls(void)
{
    struct gh_host host = GH_HOST_INIT;
    uint8_t value[513] = {0};
    struct gh_connection connection = GH_CONNECTION_INIT;
    struct gh_notice notice = GH_NOTICE_INIT;
    uint64_t time;
    uint16_t handle;
    CHECK(open_host(&host, &table, &keys, NULL, 4) == GH_DONE);
    CHECK(gh_update(&host, 0, value, 1) == GH_NO_SUCH_HANDLE);
    CHECK(gh_update(&host, 22, value, 1) == GH_NO_SUCH_HANDLE);
    CHECK(gh_update(&host, 7, value, 2) == GH_NOT_A_VALUE);
    CHECK(gh_update(&host, 10, value, 2) == GH_BAD_LENGTH);
    CHECK(gh_update(&host, 10, value, 0) == GH_BAD_LENGTH);
    CHECK(gh_update(&host, 21, value, 513) == GH_BAD_LENGTH);
    CHECK(gh_update(&host, 21, value, 512) == GH_DONE);
    CHECK(gh_authorize(&host, 64, 1) == GH_NO_SUCH_CONNECTION);
    CHECK(gh_disconnect(&host, 64) == GH_NO_SUCH_CONNECTION);
    CHECK(gh_tick(&host, 7) == GH_DONE);
    CHECK(gh_tick(&host, 6) == GH_TIME_WENT_BACK);
    CHECK(gh_tick(&host, UINT64_MAX) == GH_DONE);
    CHECK(gh_replace(&host, porch.octets, porch.length) == GH_NO_SERVICE_CHANGED);
    CHECK(gh_replace(&host, none.octets, 0) == GH_BAD_TABLE + 2);
    CHECK(gh_replace(&host, (const uint8_t *)"\xFF", 1) == GH_BAD_TABLE + 1);
    CHECK(gh_connection(&host, 0, &connection) == GH_NOTHING);
    CHECK(gh_connection(&host, SIZE_MAX, &connection) == GH_NOTHING);
    CHECK(gh_next_notice(&host, &notice) == GH_NOTHING);
    CHECK(gh_deadline(&host, &time) == GH_NOTHING && time == 0);

    const uint8_t lock[] = {0xF0, 0xFF}, state[] = {0xF1, 0xFF};
    const uint8_t long_lock[16]
        = {0xFB, 0x34, 0x9B, 0x5F, 0x80, 0, 0, 0x80, 0, 0x10, 0, 0, 0xF0, 0xFF};
    CHECK(gh_find(&host, lock, 2, state, 2, 1, &handle) == GH_DONE && handle == 10);
    CHECK(gh_find(&host, long_lock, 16, state, 2, 1, &handle) == GH_DONE && handle == 10);
    CHECK(gh_find(&host, state, 2, lock, 2, 1, &handle) == GH_NOTHING && handle == 0);
    CHECK(gh_find(&host, lock, 1, state, 2, 1, &handle) == GH_NOTHING && handle == 0);
    CHECK(gh_find(&host, lock, 2, state, 0, 1, &handle) == GH_NOTHING);
    CHECK(gh_find(&host, long_lock, 15, state, 2, 1, &handle) == GH_NOTHING);
    /* Of three values of one type each has a number. */
    const uint8_t log[] = {0xF3, 0xFF};
    CHECK(gh_find(&host, lock, 2, log, 2, 1, &handle) == GH_DONE && handle == 15);
    CHECK(gh_find(&host, lock, 2, log, 2, 2, &handle) == GH_DONE && handle == 17);
    CHECK(gh_find(&host, lock, 2, log, 2, 3, &handle) == GH_DONE && handle == 19);
    CHECK(gh_find(&host, lock, 2, log, 2, 4, &handle) == GH_NOTHING && handle == 0);
    CHECK(gh_find(&host, lock, 2, log, 2, 0, &handle) == GH_NOTHING && handle == 0);
    CHECK(gh_find(&host, lock, 2, log, 2, UINT16_MAX, &handle) == GH_NOTHING && handle == 0);
    gh_close(&host);
}

static void notices(void)
{
    struct gh_host host = GH_HOST_INIT;
    struct gh_connection seen = GH_CONNECTION_INIT;
    CHECK(open_host(&host, &table, &keys, NULL, 4) == GH_DONE);
    connect_phone(&host, 64);
    CHECK(noticed_count == 1 && noticed[0].kind == GH_CONNECTED && noticed[0].connection == 64);
    CHECK(noticed[0].address_kind == 0 && noticed[0].address[0] == 0x55);
    encrypt(&host, 64);
    CHECK(noticed_count == 1 && noticed[0].kind == GH_SECURED && noticed[0].key_size == 16);
    CHECK(noticed[0].authenticated && !noticed[0].secure);
    CHECK(gh_connection(&host, 0, &seen) == GH_DONE && seen.handle == 64 && seen.mtu == 23);
    CHECK(seen.key_size == 16 && seen.authenticated && !seen.secure && !seen.ending);
    say(&host, 64, (const uint8_t *)"\x12\x0A\x00\x01", 4, NULL);
    CHECK(noticed_count == 1 && noticed[0].kind == GH_WRITTEN && noticed[0].attribute == 10);
    /* The same octets once more are told once more. */
    say(&host, 64, (const uint8_t *)"\x12\x0A\x00\x01", 4, NULL);
    CHECK(noticed_count == 1 && noticed[0].kind == GH_WRITTEN && noticed[0].attribute == 10);
    say(&host, 64, (const uint8_t *)"\x12\x0B\x00\x01\x00", 5, NULL);
    CHECK(noticed_count == 1 && noticed[0].kind == GH_CONFIGURED && noticed[0].attribute == 11);
    CHECK(noticed[0].bits == 1);
    /* What is refused is not told. */
    say(&host, 64, (const uint8_t *)"\x12\x03\x00\x01", 4, NULL);
    CHECK(noticed_count == 0);
    CHECK(gh_disconnect(&host, 64) == GH_DONE);
    struct gh_notice notice = GH_NOTICE_INIT;
    CHECK(gh_next_notice(&host, &notice) == GH_DONE && notice.kind == GH_ENDING);
    CHECK(notice.connection == 64 && notice.reason == 0x13);
    CHECK(gh_next_notice(&host, &notice) == GH_NOTHING);
    CHECK(gh_connection(&host, 0, &seen) == GH_DONE && seen.ending);
    settle(&host, NULL);
    CHECK(noticed_count == 1 && noticed[0].kind == GH_DISCONNECTED && noticed[0].connection == 64);
    CHECK(gh_connection(&host, 0, &seen) == GH_NOTHING);
    gh_close(&host);
}

/* A copy of a file that is its own block of memory. */
static uint8_t *copy(const struct file *file)
{
    uint8_t *octets = malloc(file->length);
    CHECK(octets != NULL);
    memcpy(octets, file->octets, file->length);
    return octets;
}

/* Overwrites and frees octets: what still reads them reads others, and an instrumented program ends. */
static void waste(uint8_t *octets, size_t length)
{
    memset(octets, 0xFF, length);
    free(octets);
}

/* The host has copies of all that it needs. */
static void copies(void)
{
    static const uint8_t read[] = {0x0A, 3, 0}, name[] = {0x0B, 'L', 'o', 'c', 'k'};
    struct gh_host host = GH_HOST_INIT;
    struct gh_config config = GH_CONFIG_INIT;
    struct heard heard;
    uint8_t *texts[] = {copy(&table), copy(&keys), malloc(16), malloc(16)};
    size_t left_out, used;
    memcpy(texts[3], "10 fff1 01\n", 11);
    CHECK(gh_open(&host, texts[0], table.length, texts[1], keys.length, texts[2], 0, texts[3], 11, &config, &left_out)
          == GH_DONE);
    waste(texts[0], table.length);
    waste(texts[1], keys.length);
    waste(texts[2], 16);
    waste(texts[3], 16);
    memset(&config, 0xFF, sizeof config);
    settle(&host, NULL);
    connect_phone(&host, 64);
    encrypt(&host, 64);
    CHECK(noticed_count == 1 && noticed[0].kind == GH_SECURED);
    say(&host, 64, read, sizeof read, &heard);
    CHECK(is_heard(&heard, name, sizeof name));
    CHECK(gh_value(&host, 10, out, sizeof out, &used) == GH_DONE && used == 1 && out[0] == 1);
    /* A value, and a part of a packet. */
    uint8_t *value = malloc(3), *part = malloc(9);
    memcpy(value, "abc", 3);
    CHECK(gh_update(&host, 21, value, 3) == GH_DONE);
    waste(value, 3);
    memcpy(part, "\x02\x40\x20\x07\x00\x03\x00\x04\x00", 9);
    CHECK(gh_take(&host, part, 9, &used) == GH_DONE && used == 9);
    waste(part, 9);
    CHECK(bring(&host, (const uint8_t *)"\x0A\x15\x00", 3, &heard) == GH_DONE);
    CHECK(is_heard(&heard, (const uint8_t *)"\x0B" "abc", 4));
    gh_close(&host);
}

/* Whether the connection at a place has these. */
static bool is_seen(struct gh_host *host, size_t place, uint16_t handle, uint64_t ordinal, uint8_t slot,
                    uint64_t heard)
{
    struct gh_connection seen = GH_CONNECTION_INIT;
    return gh_connection(host, place, &seen) == GH_DONE && seen.handle == handle
        && seen.ordinal == ordinal && seen.slot == slot && seen.heard == heard;
}

/* Each connection has a number of its own, and is heard whenever it sends data. */
static void arrivals(void)
{
    /* The first octets of a frame, which is in two packets. */
    static const uint8_t part[] = {0x02, 65, 0x20, 5, 0, 3, 0, 4, 0, 0x0A};
    struct gh_host host = GH_HOST_INIT;
    CHECK(open_host(&host, &table, &keys, NULL, 4) == GH_DONE);
    CHECK(gh_tick(&host, 1000) == GH_DONE);
    connect_phone(&host, 64);
    CHECK(is_seen(&host, 0, 64, 1, 0, 1000));
    CHECK(gh_tick(&host, 2000) == GH_DONE);
    connect_phone(&host, 65);
    CHECK(is_seen(&host, 0, 64, 1, 0, 1000) && is_seen(&host, 1, 65, 2, 1, 2000));
    CHECK(gh_tick(&host, 3000) == GH_DONE);
    CHECK(bring(&host, part, sizeof part, NULL) == GH_DONE);
    CHECK(is_seen(&host, 0, 64, 1, 0, 1000) && is_seen(&host, 1, 65, 2, 1, 3000));
    CHECK(gh_tick(&host, 4000) == GH_DONE);
    say(&host, 64, (const uint8_t *)"\x0A\x03\x00", 3, NULL);
    CHECK(is_seen(&host, 0, 64, 1, 0, 4000) && is_seen(&host, 1, 65, 2, 1, 3000));
    /* Events and calls are not heard of it, and a slot is used again. */
    encrypt(&host, 65);
    CHECK(is_seen(&host, 1, 65, 2, 1, 3000));
    leave(&host, 64);
    CHECK(is_seen(&host, 0, 65, 2, 1, 3000));
    connect_phone(&host, 64);
    CHECK(is_seen(&host, 0, 64, 3, 0, 4000) && is_seen(&host, 1, 65, 2, 1, 3000));
    gh_close(&host);
}

/* A program that tells the time only at the deadline ends an authorization in time. */
static void authorization(void)
{
    static const uint8_t read[] = {0x0A, 13, 0};
    static const uint8_t code[] = {0x0B, '1', '2', '3', '4'}, refused[] = {0x01, 0x0A, 13, 0, 0x08};
    struct gh_host host = GH_HOST_INIT;
    struct heard heard;
    uint64_t deadline;
    CHECK(open_host(&host, &table, &keys, NULL, 4) == GH_DONE);
    connect_phone(&host, 64);
    encrypt(&host, 64);
    CHECK(gh_tick(&host, 1000) == GH_DONE);
    CHECK(gh_authorize(&host, 64, 6000) == GH_DONE);
    settle(&host, NULL);
    say(&host, 64, read, sizeof read, &heard);
    CHECK(is_heard(&heard, code, sizeof code));
    CHECK(gh_deadline(&host, &deadline) == GH_DONE && deadline == 6000);
    CHECK(gh_tick(&host, deadline) == GH_DONE);
    settle(&host, NULL);
    say(&host, 64, read, sizeof read, &heard);
    CHECK(is_heard(&heard, refused, sizeof refused));
    CHECK(gh_deadline(&host, &deadline) == GH_NOTHING);
    gh_close(&host);
}

/* A host that has stopped answers this to what is taken in, and 46 to calls. */
static void stays_stopped(struct gh_host *host, uint32_t status)
{
    const uint8_t *name = (const uint8_t *)"Lock";
    size_t count;
    CHECK(gh_take(host, reset_complete, sizeof reset_complete, &count) == status);
    CHECK(count == sizeof reset_complete);
    CHECK(gh_take(host, reset_complete, 0, &count) == status && count == 0);
    CHECK(gh_next_out(host, out, sizeof out, &count) == GH_NOTHING);
    CHECK(gh_update(host, 10, name, 1) == GH_HAS_STOPPED);
    CHECK(gh_authorize(host, 64, 1) == GH_HAS_STOPPED);
    CHECK(gh_disconnect(host, 64) == GH_HAS_STOPPED);
    CHECK(gh_tick(host, 5) == GH_HAS_STOPPED);
    CHECK(gh_replace(host, table.octets, table.length) == GH_HAS_STOPPED);
    CHECK(gh_value(host, 3, out, sizeof out, &count) == GH_DONE && memcmp(out, name, 4) == 0);
    CHECK(gh_rows_text(host, out, sizeof out, &count) == GH_DONE);
    CHECK(gh_close(host) == GH_DONE);
}

static void stops(const char *octets, size_t length, uint32_t status)
{
    struct gh_host host = GH_HOST_INIT;
    size_t used;
    CHECK(open_host(&host, &table, &keys, NULL, 4) == GH_DONE);
    CHECK(gh_take(&host, (const uint8_t *)octets, length, &used) == status && used == length);
    stays_stopped(&host, status);
}

static void faults(void)
{
    stops("\x07", 1, GH_DESYNC);
    stops("\x07\x04\x0E\x04\x01\x03\x0C", 7, GH_DESYNC);
    stops("\x01\x03\x0C\x00", 4, GH_DESYNC);
    stops("\x04\x05\x01\x00", 4, GH_BAD_EVENT);
    stops("\x04\x10\x01\x42", 4, GH_HARDWARE);

    struct gh_host host = GH_HOST_INIT;
    size_t count;
    CHECK(begin_host(&host, &table, &keys, NULL, 4) == GH_DONE);
    CHECK(gh_next_out(&host, out, sizeof out, &count) == GH_DONE);
    /* Reset fails with the status 0C, Command Disallowed. */
    const uint8_t refused[] = {0x04, 0x0E, 0x04, 0x01, 0x03, 0x0C, 0x0C};
    CHECK(gh_take(&host, refused, sizeof refused, &count) == GH_BAD_INIT);
    stays_stopped(&host, GH_BAD_INIT);
}

static void pieces(void)
{
    struct gh_host host = GH_HOST_INIT;
    size_t used;
    CHECK(begin_host(&host, &table, &keys, NULL, 4) == GH_DONE);
    CHECK(gh_next_out(&host, out, sizeof out, &used) == GH_DONE);
    for (size_t at = 0; at < sizeof reset_complete; at++) {
        CHECK(gh_take(&host, reset_complete + at, 0, &used) == GH_DONE && used == 0);
        CHECK(gh_next_out(&host, out, sizeof out, &used) == GH_NOTHING);
        CHECK(gh_take(&host, reset_complete + at, 1, &used) == GH_DONE && used == 1);
    }
    CHECK(gh_next_out(&host, out, sizeof out, &used) == GH_DONE && used > 4);
    /* Two packets at once are taken in one after the other. */
    uint8_t two[14] = {0x04, 0xFF, 0, 0x04, 0xFF, 0};
    CHECK(gh_take(&host, two, 6, &used) == GH_DONE && used == 3);
    gh_close(&host);
}

int main(int argc, char **argv)
{
    if (argc != 4)
        return 2;
    read_file(argv[1], &table);
    read_file(argv[2], &keys);
    read_file(argv[3], &porch);
    refused_calls();
    notices();
    copies();
    arrivals();
    authorization();
    faults();
    pieces();
    return result();
}
