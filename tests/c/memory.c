/*
 * Refuses each allocation in turn, and counts what is live. c/heap.c is compiled over the pool, or it is over the
 * pool of a microcontroller (pool.h).
 *
 *     memory PORCH KEYS PORCH_NEXT         of examples/
 */
#include "controller.h"
#include "pool.h"

#include <stdio.h>
#include <stdlib.h>

/* In front of each block stands its size, in as many octets as its alignment. */
enum { FRONT = 16 };

static struct file table, keys, next;
static struct file rows = {.octets = "0 00:11:22:33:44:55 8 1\n", .length = 24};
static unsigned asked, refused = UINT32_MAX;
static size_t blocks, live, most;

static bool is_refused(size_t size)
{
    CHECK(size > 0);
    return ++asked >= refused;
}

static void count(size_t added, size_t removed)
{
    live = live + added - removed;
    most = live > most ? live : most;
}

void *pool_take(size_t size)
{
    char *block = is_refused(size) ? NULL : TAKE_BELOW(FRONT + size);
    if (block == NULL)
        return NULL;
    *(size_t *)(void *)block = size;
    blocks++;
    count(size, 0);
    return block + FRONT;
}

void *pool_resize(void *at, size_t size)
{
    char *front = (char *)at - FRONT;
    size_t old = *(size_t *)(void *)front;
    char *block = is_refused(size) ? NULL : RESIZE_BELOW(front, FRONT + size);
    if (block == NULL)
        return NULL;
    *(size_t *)(void *)block = size;
    count(size, old);
    return block + FRONT;
}

void pool_give_back(void *at)
{
    char *front = (char *)at - FRONT;
    blocks--;
    count(0, *(size_t *)(void *)front);
    GIVE_BACK_BELOW(front);
}

static bool is_out_of_memory(uint32_t status)
{
    return status == GH_OUT_OF_MEMORY || status == GH_BAD_TABLE + 10 || status == GH_BAD_KEYS + 8
        || status == GH_BAD_ROWS + 4;
}

/* From the first allocation that is refused on, all are. */
static void refuse(unsigned from)
{
    asked = 0;
    refused = from;
}

static void opening(size_t slots)
{
    struct gh_host host = GH_HOST_INIT;
    uint32_t status = GH_NOTHING;
    unsigned at;
    for (at = 1; at < 10000 && status != GH_DONE; at++) {
        refuse(at);
        status = begin_host(&host, &table, &keys, &rows, slots);
        if (status != GH_DONE) {
            CHECK(is_out_of_memory(status));
            CHECK(host.at == NULL && blocks == 0 && live == 0);
        }
    }
    CHECK(status == GH_DONE);
    CHECK(asked == at - 2);
    /* The C library of some boards has no %zu. */
    printf("%lu connections: %u allocations, then %lu blocks with %lu octets", (unsigned long)slots, asked,
           (unsigned long)blocks, (unsigned long)live);
    CHECK(gh_close(&host) == GH_DONE);
    CHECK(blocks == 0 && live == 0);
    most = 0;
    refuse(UINT32_MAX);
    CHECK(begin_host(&host, &table, &keys, &rows, slots) == GH_DONE);
    printf(", at most %lu\n", (unsigned long)most);
    gh_close(&host);
}

/* What phones and the application do takes no memory. */
static void serving(struct gh_host *host)
{
    static const uint8_t prepare[] = {0x16, 10, 0, 0, 0, 'L'}, execute[] = {0x18, 1};
    static const uint8_t range[] = {1, 0, 0xFF, 0xFF};
    struct heard heard;
    uint64_t deadline;
    refuse(1);
    settle(host, NULL);
    connect_phone(host, 64);
    encrypt(host, 64);
    say(host, 64, (const uint8_t *)"\x12\x04\x00\x02\x00", 5, NULL);
    CHECK(noticed_count == 1 && noticed[0].kind == GH_CONFIGURED);
    say(host, 64, prepare, sizeof prepare, NULL);
    say(host, 64, execute, sizeof execute, NULL);
    CHECK(noticed_count == 1 && noticed[0].kind == GH_WRITTEN && noticed[0].attribute == 10);
    say(host, 64, (const uint8_t *)"\x0A\x0A\x00", 3, &heard);
    CHECK(is_heard(&heard, (const uint8_t *)"\x0BL", 2));
    /* By the row that the host was opened with. */
    CHECK(gh_update(host, 7, range, 1) == GH_DONE);
    settle(host, &heard);
    CHECK(is_heard(&heard, (const uint8_t *)"\x1B\x07\x00\x01", 4));
    CHECK(gh_update(host, 3, range, 4) == GH_DONE);
    settle(host, &heard);
    CHECK(heard.count == 1 && heard.octets[0] == 0x1D);
    CHECK(gh_authorize(host, 64, 1) == GH_DONE);
    settle(host, NULL);
    CHECK(gh_deadline(host, &deadline) == GH_DONE && deadline == 1);
    CHECK(gh_tick(host, 1) == GH_DONE);
    settle(host, NULL);
    CHECK(gh_deadline(host, &deadline) == GH_DONE && deadline == 30000);
    CHECK(gh_tick(host, 30000) == GH_DONE);
    settle(host, NULL);
    CHECK(gh_disconnect(host, 64) == GH_DONE);
    settle(host, NULL);
    connect_phone(host, 65);
    leave(host, 65);
    CHECK(asked == 0);
}

/* The texts that are saved, and the words for a fault, take memory that is given back. */
static void texts(struct gh_host *host)
{
    static const char faulty[] = "service = [{ uuid = \"1800\" }, { uuid = \"18\" }]";
    uint8_t text[256];
    size_t length, before = live;
    uint32_t status = GH_NOTHING;
    refuse(1);
    CHECK(gh_rows_text(host, text, sizeof text, &length) == GH_OUT_OF_MEMORY && length == 0);
    CHECK(gh_values_text(host, 1, text, sizeof text, &length) == GH_OUT_OF_MEMORY && length == 0);
    CHECK(live == before);
    refuse(UINT32_MAX);
    CHECK(gh_rows_text(host, text, sizeof text, &length) == GH_DONE && length > 0);
    CHECK(gh_values_text(host, 1, text, sizeof text, &length) == GH_DONE && length > 0);
    CHECK(live == before);

    unsigned at;
    for (at = 1; at < 10000 && status != GH_DONE; at++) {
        refuse(at);
        status = gh_explain((const uint8_t *)faulty, sizeof faulty - 1, GH_EMPTY, 0, GH_EMPTY, 0,
                            GH_EMPTY, 0, text, sizeof text, &length);
        CHECK(status == GH_DONE || (status == GH_OUT_OF_MEMORY && length == 0));
        CHECK(live == before);
    }
    CHECK(status == GH_DONE);
    printf("explaining: %u allocations\n", asked);
}

static void replacing(struct gh_host *host)
{
    size_t before = live;
    uint32_t status = GH_NOTHING;

    unsigned at;
    for (at = 1; at < 10000 && status != GH_DONE; at++) {
        refuse(at);
        status = gh_replace(host, next.octets, next.length);
        if (status != GH_DONE) {
            CHECK(status == GH_BAD_TABLE + 10);
            CHECK(live == before);
        }
    }
    CHECK(status == GH_DONE);
    printf("replacing: %u allocations\n", asked);
}

int main(int argc, char **argv)
{
    struct gh_host host = GH_HOST_INIT;
    if (argc != 4)
        return 2;
    read_file(argv[1], &table);
    read_file(argv[2], &keys);
    read_file(argv[3], &next);
    opening(4);
    opening(8);
    CHECK(begin_host(&host, &table, &keys, &rows, 4) == GH_DONE);
    serving(&host);
    texts(&host);
    replacing(&host);
    CHECK(gh_close(&host) == GH_DONE);
    CHECK(blocks == 0 && live == 0);
    return result();
}
