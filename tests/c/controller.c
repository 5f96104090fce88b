#include "controller.h"

#include <stdio.h>
#include <stdlib.h>
#include <string.h>

const uint8_t reset_complete[7] = {0x04, 0x0E, 0x04, 0x01, 0x03, 0x0C, 0x00};
struct gh_notice noticed[64];
size_t noticed_count;
static unsigned checks, failures;

void check(bool is_so, const char *text, const char *file, int line)
{
    checks++;
    if (is_so)
        return;
    failures++;
    fprintf(stderr, "%s:%d: not so: %s\n", file, line, text);
}

bool failed(void)
{
    return failures != 0;
}

int result(void)
{
    printf("%u checks, %u failed\n", checks, failures);
    return failures != 0;
}

void read_file(const char *path, struct file *file)
{
    FILE *stream = fopen(path, "rb");
    if (stream == NULL) {
        perror(path);
        exit(2);
    }
    file->length = fread(file->octets, 1, sizeof file->octets, stream);
    fclose(stream);
}

/* Takes in octets whole. What is owed is out before, and may be owed behind. */
static uint32_t take_whole(struct gh_host *host, const uint8_t *octets, size_t length,
                           struct heard *heard);

static uint32_t answer(struct gh_host *host, const uint8_t *packet, struct heard *heard)
{
    uint8_t event[] = {0x04, 0x0E, 4, 1, packet[1], packet[2], 0, 0, 0, 0};
    uint16_t opcode = (uint16_t)(packet[1] | packet[2] << 8);
    size_t more = 0;
    if (opcode == 0x2002) {
        /* Buffers of 27 octets, of which there are 8. */
        event[7] = 27;
        event[9] = 8;
        more = 3;
    } else if (opcode == 0x201A || opcode == 0x201B || opcode == 0x0406) {
        event[7] = packet[4];
        event[8] = packet[5];
        more = 2;
    }
    if (opcode == 0x0406) {
        /* Command Status, and the connection is gone. */
        const uint8_t gone[]
            = {0x04, 0x0F, 4, 0, 1, 0x06, 0x04, 0x04, 5, 4, 0, packet[4], packet[5], 0x16};
        return take_whole(host, gone, sizeof gone, heard);
    }
    event[2] = (uint8_t)(4 + more);
    return take_whole(host, event, 7 + more, heard);
}

static uint32_t react(struct gh_host *host, const uint8_t *packet, size_t length,
                      struct heard *heard)
{
    if (packet[0] == 0x01)
        return answer(host, packet, heard);
    const uint8_t handle[] = {packet[1], packet[2] & 0x0F};
    /* The boundary flag is 0 for the first part of a frame, and 1 for each that follows. */
    bool is_first = (packet[2] & 0x30) == 0;
    if (heard != NULL) {
        size_t skipped = is_first ? 9 : 5;
        heard->count += is_first;
        heard->length = is_first ? 0 : heard->length;
        memcpy(heard->octets + heard->length, packet + skipped, length - skipped);
        heard->length += length - skipped;
    }
    const uint8_t completed[] = {0x04, 0x13, 5, 1, handle[0], handle[1], 1, 0};
    return take_whole(host, completed, sizeof completed, heard);
}

static uint32_t drain(struct gh_host *host, struct heard *heard)
{
    uint8_t packets[32][GH_LONGEST_PACKET];
    size_t lengths[32], count = 0;
    while (count < 32
           && gh_next_out(host, packets[count], GH_LONGEST_PACKET, &lengths[count]) == GH_DONE)
        count++;
    CHECK(count < 32);
    for (size_t at = 0; at < count; at++) {
        uint32_t status = react(host, packets[at], lengths[at], heard);
        if (status != GH_DONE)
            return status;
    }
    return GH_DONE;
}

static uint32_t take_whole(struct gh_host *host, const uint8_t *octets, size_t length,
                           struct heard *heard)
{
    size_t at = 0;
    while (at < length) {
        size_t used;
        uint32_t status = gh_take(host, octets + at, length - at, &used);
        if (status != GH_DONE)
            return status;
        at += used;
        struct gh_notice notice = GH_NOTICE_INIT;
        while (noticed_count < 64 && gh_next_notice(host, &notice) == GH_DONE)
            noticed[noticed_count++] = notice;
        status = drain(host, heard);
        if (status != GH_DONE)
            return status;
    }
    return GH_DONE;
}

uint32_t bring(struct gh_host *host, const uint8_t *octets, size_t length, struct heard *heard)
{
    noticed_count = 0;
    if (heard != NULL)
        *heard = (struct heard){.count = 0};
    uint32_t status = drain(host, heard);
    return status != GH_DONE ? status : take_whole(host, octets, length, heard);
}

void settle(struct gh_host *host, struct heard *heard)
{
    bring(host, (const uint8_t *)"", 0, heard);
}

void connect_phone(struct gh_host *host, uint16_t connection)
{
    const uint8_t complete[] = {
        0x04, 0x3E, 19, 0x01, 0, (uint8_t)connection, (uint8_t)(connection >> 8), 1, 0,
        0x55, 0x44, 0x33, 0x22, 0x11, 0x00, 24, 0, 0, 0, 200, 0, 0,
    };
    CHECK(bring(host, complete, sizeof complete, NULL) == GH_DONE);
}

void encrypt(struct gh_host *host, uint16_t connection)
{
    const uint8_t low = (uint8_t)connection, high = (uint8_t)(connection >> 8);
    const uint8_t request[] = {0x04, 0x3E, 13, 0x05, low, high, 2, 2, 2, 2, 2, 2, 2, 2, 0x02, 0x02};
    const uint8_t changed[] = {0x04, 0x08, 4, 0, low, high, 1};
    CHECK(bring(host, request, sizeof request, NULL) == GH_DONE);
    CHECK(bring(host, changed, sizeof changed, NULL) == GH_DONE);
}

void say(struct gh_host *host, uint16_t connection, const uint8_t *pdu, size_t length,
         struct heard *heard)
{
    uint8_t packet[64] = {
        0x02, (uint8_t)connection, (uint8_t)(connection >> 8 | 0x20), (uint8_t)(length + 4), 0,
        (uint8_t)length, 0, 4, 0,
    };
    memcpy(packet + 9, pdu, length);
    CHECK(bring(host, packet, 9 + length, heard) == GH_DONE);
}

void leave(struct gh_host *host, uint16_t connection)
{
    const uint8_t low = (uint8_t)connection, high = (uint8_t)(connection >> 8);
    const uint8_t gone[] = {0x04, 0x05, 4, 0, low, high, 0x13};
    CHECK(bring(host, gone, sizeof gone, NULL) == GH_DONE);
}

bool is_heard(const struct heard *heard, const uint8_t *pdu, size_t length)
{
    return heard->length == length && memcmp(heard->octets, pdu, length) == 0;
}

uint32_t begin_host(struct gh_host *host, const struct file *table, const struct file *keys,
                    const struct file *rows, size_t slots)
{
    struct gh_config config = GH_CONFIG_INIT;
    size_t left_out = 1000;
    config.slots = slots;
    uint32_t status = gh_open(host, table->octets, table->length, keys->octets, keys->length,
                              rows != NULL ? rows->octets : GH_EMPTY, rows != NULL ? rows->length : 0,
                              GH_EMPTY, 0, &config, &left_out);
    CHECK(left_out == 0);
    return status;
}

uint32_t open_host(struct gh_host *host, const struct file *table, const struct file *keys,
                   const struct file *rows, size_t slots)
{
    uint32_t status = begin_host(host, table, keys, rows, slots);
    if (status == GH_DONE)
        settle(host, NULL);
    return status;
}
