/*
 * Counts the instructions of some calls on an emulated processor, whose clock advances by a
 * nanosecond for each of them (qemu -icount shift=0):
 *
 *     bench TABLE KEYS
 *
 * It makes the calls of docs/C.md: it passes a packet, and fetches output until there is none.
 * Each request is answered by one packet, whose completion the controller then reports.
 */
#include "controller.h"

#include <stdio.h>

enum { TIMES = 1000 };

#if defined(__arm__)
/* SysTick, which counts down by 24 bits (Armv7-M Architecture Reference Manual, B3.3). */
static volatile uint32_t *const systick = (volatile uint32_t *)0xE000E010;

static void start_counting(void)
{
    systick[1] = 0x00FFFFFF;
    systick[2] = 0;
    systick[0] = 5; /* by the clock of the processor */
}

static uint32_t count_of(uint32_t begun, uint32_t ended)
{
    return ((begun - ended) & 0x00FFFFFF) * NANOSECONDS;
}

static uint32_t now(void)
{
    return systick[2];
}
#else
/* The instructions that are retired (RISC-V Unprivileged ISA, 10.1). */
static void start_counting(void)
{
}

static uint32_t now(void)
{
    uint32_t count;
    __asm__ volatile(".option push\n.option arch, +zicsr\ncsrr %0, instret\n.option pop" : "=r"(count));
    return count;
}

static uint32_t count_of(uint32_t begun, uint32_t ended)
{
    return ended - begun;
}
#endif

static struct file table, keys;
static struct gh_host host = GH_HOST_INIT;

/* Passes a packet, and fetches what it causes. Returns how many packets that are. */
static unsigned pass(const uint8_t *octets, size_t length)
{
    uint8_t out[GH_LONGEST_PACKET];
    unsigned packets = 0;
    size_t used, count;
    gh_take(&host, octets, length, &used);
    while (gh_next_out(&host, out, sizeof out, &count) == GH_DONE)
        packets++;
    return packets;
}

/* A request, and its completion. */
static void count_request(const char *name, const uint8_t *pdu, size_t length)
{
    static const uint8_t completed[] = {0x04, 0x13, 5, 1, 64, 0, 1, 0};
    uint8_t packet[64] = {0x02, 64, 0x20, (uint8_t)(length + 4), 0, (uint8_t)length, 0, 4, 0};
    unsigned packets = 0;
    uint32_t begun;
    for (size_t at = 0; at < length; at++)
        packet[9 + at] = pdu[at];
    begun = now();
    for (unsigned times = 0; times < TIMES; times++) {
        packets += pass(packet, 9 + length);
        packets += pass(completed, sizeof completed);
    }
    printf("count %s %lu\n", name, (unsigned long)(count_of(begun, now()) / TIMES));
    CHECK(packets == TIMES);
}

static void count_calls(void)
{
    uint8_t out[GH_LONGEST_PACKET];
    size_t count;
    uint32_t begun = now();
    for (unsigned times = 0; times < TIMES; times++)
        gh_tick(&host, times);
    printf("count tick %lu\n", (unsigned long)(count_of(begun, now()) / TIMES));
    begun = now();
    for (unsigned times = 0; times < TIMES; times++)
        gh_next_out(&host, out, sizeof out, &count);
    printf("count nothing %lu\n", (unsigned long)(count_of(begun, now()) / TIMES));
}

int main(int argc, char **argv)
{
    static const uint8_t by_group[] = {0x10, 1, 0, 0xFF, 0xFF, 0, 0x28}, by_type[] = {0x08, 1, 0, 0xFF, 0xFF, 3, 0x28};
    static const uint8_t reading[] = {0x0A, 3, 0}, writing[] = {0x12, 10, 0, 1};
    uint32_t begun;
    if (argc != 3)
        return 64;
    read_file(argv[1], &table);
    read_file(argv[2], &keys);
    start_counting();
    begun = now();
    CHECK(begin_host(&host, &table, &keys, NULL, 4) == GH_DONE);
    printf("count open %lu\n", (unsigned long)count_of(begun, now()));
    settle(&host, NULL);
    connect_phone(&host, 64);
    count_request("read", reading, sizeof reading);
    count_request("group", by_group, sizeof by_group);
    count_request("type", by_type, sizeof by_type);
    count_request("write", writing, sizeof writing);
    count_calls();
    return result();
}
