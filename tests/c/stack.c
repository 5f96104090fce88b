/*
 * How much stack the functions take: each runs in a thread whose stack is painted before.
 *
 *     stack PORCH KEYS PORCH_NEXT         of examples/
 */
#define _GNU_SOURCE
#include "controller.h"

#include <pthread.h>
#include <stdio.h>
#include <string.h>

enum { STACK = 256 * 1024, PAINT = 0xA5 };

static struct file table, keys, next;
static struct gh_host host = GH_HOST_INIT;
static uint8_t stack[STACK] __attribute__((aligned(4096)));

/* The octets of the stack that a function used, from the top. */
static size_t used_by(void *(*function)(void *))
{
    pthread_attr_t attributes;
    pthread_t thread;
    memset(stack, PAINT, sizeof stack);
    pthread_attr_init(&attributes);
    CHECK(pthread_attr_setstack(&attributes, stack, sizeof stack) == 0);
    CHECK(pthread_create(&thread, &attributes, function, NULL) == 0);
    CHECK(pthread_join(thread, NULL) == 0);
    size_t left = 0;
    while (left < sizeof stack && stack[left] == PAINT)
        left++;
    return sizeof stack - left;
}

static void *nothing(void *unused)
{
    return unused;
}

static void *opening(void *unused)
{
    CHECK(begin_host(&host, &table, &keys, NULL, 8) == GH_DONE);
    return unused;
}

static void *replacing(void *unused)
{
    CHECK(gh_replace(&host, next.octets, next.length) == GH_DONE);
    return unused;
}

static void *taking(void *unused)
{
    /* A Read by Group Type Request over all handles. */
    static const uint8_t request[]
        = {0x02, 64, 0x20, 11, 0, 7, 0, 4, 0, 0x10, 1, 0, 0xFF, 0xFF, 0, 0x28};
    size_t used;
    CHECK(gh_take(&host, request, sizeof request, &used) == GH_DONE && used == sizeof request);
    return unused;
}

static void *handing_out(void *unused)
{
    static uint8_t packet[GH_LONGEST_PACKET];
    size_t count;
    CHECK(gh_next_out(&host, packet, sizeof packet, &count) == GH_DONE && count > 9);
    return unused;
}

static void *telling_the_time(void *unused)
{
    CHECK(gh_tick(&host, 1) == GH_DONE);
    return unused;
}

static void *reading(void *unused)
{
    static uint8_t text[256];
    size_t count;
    CHECK(gh_rows_text(&host, text, sizeof text, &count) == GH_DONE);
    return unused;
}

static void *saving(void *unused)
{
    static uint8_t text[256];
    size_t count;
    CHECK(gh_values_text(&host, 1, text, sizeof text, &count) == GH_DONE && count > 0);
    return unused;
}

static void *explaining(void *unused)
{
    static const char faulty[] = "service = [{ uuid = \"1800\" }, { uuid = \"18\" }]";
    static uint8_t text[256];
    size_t count;
    CHECK(gh_explain((const uint8_t *)faulty, sizeof faulty - 1, keys.octets, keys.length, GH_EMPTY, 0,
                     GH_EMPTY, 0, text, sizeof text, &count) == GH_DONE);
    return unused;
}

int main(int argc, char **argv)
{
    if (argc != 4)
        return 2;
    read_file(argv[1], &table);
    read_file(argv[2], &keys);
    read_file(argv[3], &next);
    size_t thread = used_by(nothing);
    size_t open = used_by(opening) - thread;
    settle(&host, NULL);
    connect_phone(&host, 64);
    size_t take = used_by(taking) - thread;
    size_t hand = used_by(handing_out) - thread;
    settle(&host, NULL);
    size_t tick = used_by(telling_the_time) - thread;
    size_t rows = used_by(reading) - thread;
    CHECK(gh_update(&host, 10, table.octets, 1) == GH_DONE);
    settle(&host, NULL);
    size_t values = used_by(saving) - thread;
    size_t replace = used_by(replacing) - thread;
    size_t explain = used_by(explaining) - thread;
    printf("octets of stack: gh_open %zu, gh_take %zu, gh_next_out %zu, gh_tick %zu, gh_rows_text %zu, "
           "gh_values_text %zu, gh_replace %zu, gh_explain %zu\n",
           open, take, hand, tick, rows, values, replace, explain);
    /* What the header asks for. */
    CHECK(open < 16 * 1024 && replace < 16 * 1024 && explain < 16 * 1024);
    CHECK(take < 4096 && hand < 4096 && tick < 4096 && rows < 4096 && values < 4096);
    gh_close(&host);
    return result();
}
