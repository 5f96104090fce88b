/*
 * What the functions answer to a program that does what it should not, as the header says: handles
 * that are closed or open, files and configurations that are refused, output that is owed, and
 * short buffers.
 *
 *     edges TABLE KEYS         examples/door.toml and keys.toml
 */
#include "controller.h"

#include <stdio.h>
#include <string.h>

static struct file table, keys, none;
static uint8_t out[GH_LONGEST_PACKET];

/* What each function answers for a host, in the order of the header, but gh_open and gh_close. */
static void each(struct gh_host *host, uint32_t statuses[14])
{
    const uint8_t type[] = {0xF0, 0xFF};
    size_t count = 1000;
    uint16_t handle = 1000;
    uint64_t time = 1000;
    struct gh_connection connection = GH_CONNECTION_INIT;
    struct gh_notice notice = GH_NOTICE_INIT;
    statuses[0] = gh_take(host, reset_complete, sizeof reset_complete, &count);
    CHECK(statuses[0] == GH_DONE || count == 0 || count == sizeof reset_complete);
    statuses[1] = gh_next_out(host, out, sizeof out, &count);
    statuses[2] = gh_update(host, 10, type, 1);
    statuses[3] = gh_authorize(host, 64, 0);
    statuses[4] = gh_disconnect(host, 64);
    statuses[5] = gh_tick(host, 1);
    statuses[6] = gh_replace(host, table.octets, table.length);
    statuses[7] = gh_value(host, 3, out, sizeof out, &count);
    statuses[8] = gh_find(host, type, sizeof type, type, sizeof type, 1, &handle);
    statuses[9] = gh_rows_text(host, out, sizeof out, &count);
    statuses[10] = gh_deadline(host, &time);
    statuses[11] = gh_connection(host, 0, &connection);
    statuses[12] = gh_next_notice(host, &notice);
    statuses[13] = gh_values_text(host, 1, out, sizeof out, &count);
}

static void closed_handles(void)
{
    struct gh_host host = GH_HOST_INIT;
    uint32_t statuses[14];
    each(&host, statuses);
    for (int at = 0; at < 14; at++)
        CHECK(statuses[at] == GH_CLOSED);
    CHECK(gh_close(&host) == GH_CLOSED);

    CHECK(open_host(&host, &table, &keys, NULL, 4) == GH_DONE);
    CHECK(gh_close(&host) == GH_DONE);
    CHECK(host.at == NULL);
    CHECK(gh_close(&host) == GH_CLOSED);
    each(&host, statuses);
    for (int at = 0; at < 14; at++)
        CHECK(statuses[at] == GH_CLOSED);
}

static uint32_t opened(const char *a, size_t a_length, const char *b, size_t b_length,
                       const char *c, size_t c_length)
{
    struct gh_host host = GH_HOST_INIT;
    struct gh_config config = GH_CONFIG_INIT;
    size_t left_out = 1000;
    config.rx_mtu = 23;
    uint32_t status = gh_open(&host, (const uint8_t *)a, a_length, (const uint8_t *)b, b_length,
                              (const uint8_t *)c, c_length, GH_EMPTY, 0, &config, &left_out);
    CHECK((status == GH_DONE) == (host.at != NULL));
    CHECK(left_out == 0);
    gh_close(&host);
    return status;
}

static uint32_t configured(struct gh_config config)
{
    struct gh_host host = GH_HOST_INIT;
    size_t left_out = 1000;
    uint32_t status = gh_open(&host, table.octets, table.length, keys.octets, keys.length,
                              GH_EMPTY, 0, GH_EMPTY, 0, &config, &left_out);
    CHECK((status == GH_DONE) == (host.at != NULL));
    CHECK(left_out == 0);
    gh_close(&host);
    return status;
}

static void refused_openings(void)
{
    static const char nothing[] = "service = []";
    const char *text = (const char *)table.octets;
    CHECK(opened(nothing, 12, "", 0, "", 0) == GH_DONE);
    CHECK(opened("", 0, "", 0, "", 0) == GH_BAD_TABLE + 2);
    CHECK(opened("service = ", 10, "", 0, "", 0) == GH_BAD_TABLE + 1);
    CHECK(opened("\xFF", 1, "", 0, "", 0) == GH_BAD_TABLE + 1);
    CHECK(opened(text, table.length, "\xFF", 1, "", 0) == GH_BAD_KEYS + 1);
    CHECK(opened(text, table.length, "other = 1", 9, "", 0) == GH_BAD_KEYS + 9);
    CHECK(opened(text, table.length, "", 0, "\xFF\n", 2) == GH_BAD_ROWS + 1);
    CHECK(opened(text, table.length, "", 0, "no row\n", 7) == GH_BAD_ROWS + 1);
    /* Of files with faults the first is told. */
    CHECK(opened("service = ", 10, "other = 1", 9, "no row\n", 7) == GH_BAD_TABLE + 1);
    CHECK(opened(nothing, 12, "other = 1", 9, "no row\n", 7) == GH_BAD_KEYS + 9);

    struct gh_config good = GH_CONFIG_INIT, bad;
    CHECK(configured(good) == GH_DONE);
    good.slots = 8;
    good.rx_mtu = 517;
    good.is_random = 1;
    memcpy(good.address, "\1\2\3\4\5\xC6", 6);
    good.advertising_length = 31;
    CHECK(configured(good) == GH_DONE);
    /* A program may have a newer header than the library, and not an older one. */
    bad = good, bad.size++;
    CHECK(configured(bad) == GH_DONE);
    bad = good, bad.size--;
    CHECK(configured(bad) == GH_BAD_CONFIG);
    bad = good, bad.size = 0;
    CHECK(configured(bad) == GH_BAD_CONFIG);
    bad = good, bad.slots = 0;
    CHECK(configured(bad) == GH_BAD_CONFIG);
    bad = good, bad.slots = 9;
    CHECK(configured(bad) == GH_BAD_CONFIG);
    bad = good, bad.slots = SIZE_MAX;
    CHECK(configured(bad) == GH_BAD_CONFIG);
    bad = good, bad.rx_mtu = 22;
    CHECK(configured(bad) == GH_BAD_CONFIG);
    bad = good, bad.rx_mtu = 518;
    CHECK(configured(bad) == GH_BAD_CONFIG);
    bad = good, bad.address[5] = 0x86;
    CHECK(configured(bad) == GH_BAD_CONFIG);
    bad.is_random = 0;
    CHECK(configured(bad) == GH_DONE);
    bad = good, bad.advertising_length = 32;
    CHECK(configured(bad) == GH_BAD_CONFIG);
    bad = good, bad.advertising_length = 255;
    CHECK(configured(bad) == GH_BAD_CONFIG);
}

static void open_over_open(void)
{
    struct gh_host host = GH_HOST_INIT;
    struct gh_config config = GH_CONFIG_INIT;
    struct heard heard;
    size_t left_out = 1000;
    CHECK(open_host(&host, &table, &keys, NULL, 4) == GH_DONE);
    connect_phone(&host, 64);
    void *at = host.at;
    const uint8_t *text = GH_EMPTY;
    CHECK(gh_open(&host, text, 0, text, 0, text, 0, text, 0, &config, &left_out) == GH_ALREADY_OPEN);
    CHECK(left_out == 0);
    CHECK(gh_open(&host, table.octets, table.length, text, 0, text, 0, text, 0, &config, &left_out)
          == GH_ALREADY_OPEN);
    CHECK(host.at == at);
    say(&host, 64, (const uint8_t *)"\x0A\x03\x00", 3, &heard);
    CHECK(is_heard(&heard, (const uint8_t *)"\x0BLock", 5));
    gh_close(&host);
}

static void output_that_is_owed(void)
{
    struct gh_host host = GH_HOST_INIT;
    uint32_t statuses[14];
    size_t count;
    CHECK(begin_host(&host, &table, &keys, NULL, 4) == GH_DONE);
    /* Reset is owed. */
    CHECK(gh_next_out(&host, out, GH_LONGEST_PACKET - 1, &count) == GH_SHORT_BUFFER && count == GH_LONGEST_PACKET);
    CHECK(gh_next_out(&host, out, 0, &count) == GH_SHORT_BUFFER && count == GH_LONGEST_PACKET);
    CHECK(gh_take(&host, reset_complete, sizeof reset_complete, &count) == GH_OUTPUT_OWED);
    CHECK(count == 0);
    CHECK(gh_update(&host, 10, none.octets, 1) == GH_OUTPUT_OWED);
    CHECK(gh_update(&host, 9999, none.octets, 1) == GH_OUTPUT_OWED);
    CHECK(gh_authorize(&host, 64, 1) == GH_OUTPUT_OWED);
    CHECK(gh_disconnect(&host, 64) == GH_OUTPUT_OWED);
    CHECK(gh_tick(&host, 5) == GH_OUTPUT_OWED);
    CHECK(gh_replace(&host, table.octets, table.length) == GH_OUTPUT_OWED);
    CHECK(gh_replace(&host, none.octets, 0) == GH_OUTPUT_OWED);
    CHECK(gh_next_out(&host, out, sizeof out, &count) == GH_DONE && count == 4);
    CHECK(memcmp(out, "\x01\x03\x0C\x00", 4) == 0);
    CHECK(gh_next_out(&host, out, sizeof out, &count) == GH_NOTHING && count == 0);
    /* None of these calls took anything in. */
    CHECK(gh_tick(&host, 0) == GH_DONE);
    each(&host, statuses);
    CHECK(statuses[0] == GH_DONE && statuses[1] == GH_DONE);
    gh_close(&host);
}

static void short_buffers(void)
{
    struct gh_host host = GH_HOST_INIT;
    uint8_t text[256];
    size_t count;
    CHECK(open_host(&host, &table, &keys, NULL, 4) == GH_DONE);
    CHECK(gh_value(&host, 3, text, 3, &count) == GH_SHORT_BUFFER && count == 4);
    CHECK(gh_value(&host, 3, text, 0, &count) == GH_SHORT_BUFFER && count == 4);
    CHECK(gh_value(&host, 3, text, 4, &count) == GH_DONE && count == 4);
    CHECK(memcmp(text, "Lock", 4) == 0);
    CHECK(gh_value(&host, 7, text, 0, &count) == GH_DONE && count == 0);
    CHECK(gh_value(&host, 0, text, sizeof text, &count) == GH_NOTHING && count == 0);
    CHECK(gh_value(&host, 22, text, sizeof text, &count) == GH_NOTHING && count == 0);
    CHECK(gh_rows_text(&host, text, 0, &count) == GH_DONE && count == 0);
    connect_phone(&host, 64);
    encrypt(&host, 64);
    say(&host, 64, (const uint8_t *)"\x12\x0B\x00\x01\x00", 5, NULL);
    static const char row[] = "0 00:11:22:33:44:55 11 1\n";
    CHECK(gh_rows_text(&host, text, sizeof row - 2, &count) == GH_SHORT_BUFFER);
    CHECK(count == sizeof row - 1);
    CHECK(gh_rows_text(&host, text, sizeof row - 1, &count) == GH_DONE && count == sizeof row - 1);
    CHECK(memcmp(text, row, sizeof row - 1) == 0);
    gh_close(&host);
}

/* Structures that are larger than the library's are accepted, and smaller ones refused. */
static void sizes(void)
{
    struct gh_host host = GH_HOST_INIT;
    struct gh_connection connection = GH_CONNECTION_INIT;
    struct gh_notice notice = GH_NOTICE_INIT;
    size_t used;
    const uint8_t complete[] = {
        0x04, 0x3E, 19, 0x01, 0, 64, 0, 1, 0, 0x55, 0x44, 0x33, 0x22, 0x11, 0x00, 24, 0, 0, 0, 200, 0, 0,
    };
    CHECK(open_host(&host, &table, &keys, NULL, 4) == GH_DONE);
    CHECK(gh_take(&host, complete, sizeof complete, &used) == GH_DONE);
    connection.size--;
    CHECK(gh_connection(&host, 0, &connection) == GH_BAD_SIZE && connection.handle == 0);
    CHECK(gh_connection(&host, 9, &connection) == GH_BAD_SIZE);
    connection.size = SIZE_MAX;
    CHECK(gh_connection(&host, 0, &connection) == GH_DONE && connection.handle == 64);
    CHECK(connection.size == SIZE_MAX);
    notice.size--;
    CHECK(gh_next_notice(&host, &notice) == GH_BAD_SIZE && notice.kind == 0);
    notice.size = sizeof notice + 8;
    CHECK(gh_next_notice(&host, &notice) == GH_DONE && notice.kind == GH_CONNECTED);
    CHECK(notice.size == sizeof notice + 8);
    notice.size = 0;
    CHECK(gh_next_notice(&host, &notice) == GH_BAD_SIZE);
    gh_close(&host);
}

/* The texts of the statuses, from the first of each group on. */
static const struct {
    uint32_t first;
    const char *texts[12];
} groups[] = {
    {0, {
        "done",
        "there is nothing to hand out",
        "no host is open",
        "a host is open already",
        "packets have to go out first",
        "the buffer is too short",
        "memory was refused",
        "the configuration is out of its limits",
        "a structure is smaller than that of the library",
    }},
    {21, {
        "host: an octet begins no packet",
        "host: an event is too short for its fields, or has another length than it states",
        "host: the controller could not be initialised",
        "host: the controller reports an error of its own",
    }},
    {41, {
        "there is no attribute with the handle",
        "it is no characteristic value",
        "the value is longer than its largest length, or a fixed one has another length",
        "no connection with the handle serves",
        "the time is earlier than the current time",
        "the host has stopped",
        "a table has no value that tells of changes, or they have it at different handles",
    }},
    {101, {
        "table: it is not TOML",
        "table: a key that has to be there is not",
        "table: this is no UUID, or this UUID is not allowed here",
        "table: a value is not an even number of hexadecimal digits",
        "table: a value of more than 512 octets, or a max out of its range",
        "table: a need with a key_size out of its range, or with another key",
        "table: a property that is unknown or not allowed there, or a config with "
        "nothing to configure",
        "table: more attributes, configurations or octets than a table may have",
        "table: an include of a service that is not before it",
        "table: memory was refused",
        "table: a key that is unknown, or of another TOML type than its own",
    }},
    {201, {
        "keys: it is not TOML",
        "keys: a key that has to be there is not",
        "keys: an address or a kind is none",
        "keys: a rand or an ltk is not that many hexadecimal digits",
        "keys: a size is out of its range",
        "keys: an earlier entry has the same peer, rand and ediv",
        "keys: more than 64 entries",
        "keys: memory was refused",
        "keys: a key that is unknown, or of another TOML type than its own",
        "keys: a secure key with another rand or ediv than 0",
    }},
    {301, {
        "rows: a line says nothing that a rows file may say",
        "rows: a line says what an earlier one has said",
        "rows: more of them than a rows file may have",
        "rows: memory was refused",
    }},
    {401, {
        "values: a line is not a handle, a type, and octets in hexadecimal or `-`",
    }},
};

/* The text of a status, or NULL if no function answers it. */
static const char *text_of(uint32_t status)
{
    for (size_t at = 0; at < sizeof groups / sizeof groups[0]; at++) {
        uint32_t place = status - groups[at].first;
        if (status >= groups[at].first && place < 12 && groups[at].texts[place])
            return groups[at].texts[place];
    }
    return NULL;
}

static void texts(void)
{
    uint8_t text[128];
    size_t count, said = 0;
    for (uint32_t status = 0; status < 1000; status++) {
        const char *wanted = text_of(status);
        CHECK(gh_text(status, text, sizeof text, &count) == (wanted ? GH_DONE : GH_NOTHING));
        CHECK(count == (wanted ? strlen(wanted) : 0));
        CHECK(!wanted || memcmp(text, wanted, count) == 0);
        said += wanted != NULL;
    }
    CHECK(said == 9 + 4 + 7 + 11 + 10 + 4 + 1);
    CHECK(gh_text(UINT32_MAX, text, sizeof text, &count) == GH_NOTHING);
    CHECK(gh_text(GH_DONE, text, 3, &count) == GH_SHORT_BUFFER && count == 4);
    CHECK(GH_TABLE_SHAPE == GH_BAD_TABLE + 11 && GH_KEYS_NOT_ZERO == GH_BAD_KEYS + 10);
    CHECK(GH_ROWS_OUT_OF_MEMORY == GH_BAD_ROWS + 4 && GH_VALUES_BAD_LINE == GH_BAD_VALUES + 1);
    CHECK(gh_version() == GH_VERSION);
}

int main(int argc, char **argv)
{
    if (argc != 3)
        return 2;
    read_file(argv[1], &table);
    read_file(argv[2], &keys);
    closed_handles();
    refused_openings();
    open_over_open();
    output_that_is_owed();
    short_buffers();
    sizes();
    texts();
    return result();
}
