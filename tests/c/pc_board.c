/*
 * The board of mcu/firmware/ as a process of this PC, so that its application and its saving run with sanitizers.
 *
 *     program LINE CONSOLE FLASH
 *
 * LINE and CONSOLE are file descriptors of sockets, and FLASH is the file behind the emulated flash. An octet behind
 * the emulated flash is 1 while the bolt is open. The time is that of the system. There is no interrupt: octets wait
 * in a ring as on a board, and the ring is filled when the firmware sleeps.
 */
#define _GNU_SOURCE
#include "board.h"
#include "emulated_flash.h"
#include "processor.h"
#include "ring.h"

#include <fcntl.h>
#include <poll.h>
#include <stdio.h>
#include <stdlib.h>
#include <string.h>
#include <sys/mman.h>
#include <sys/socket.h>
#include <time.h>
#include <unistd.h>

enum { PAGE = 4096, MAPPED = 4 * PAGE, BOLT = 3 * PAGE };

/* The main of lock.c, under another name. */
int firmware(void);

static int line, console;
static struct ring received, sending;
/* The file is mapped here: the emulated flash, and the bolt. */
_Alignas(PAGE) static uint8_t mapped[MAPPED];
/* tests/c/pc_board.c gives emulated_flash this place, as a linker script does on a board. */
extern struct emulated_flash emulated_flash __attribute__((alias("mapped")));
_Static_assert(sizeof(struct emulated_flash) <= BOLT, "the flash is before the bolt");

void board_start(void)
{
    board_turn_bolt(false);
}

uint64_t board_time(void)
{
    struct timespec time;
    clock_gettime(CLOCK_MONOTONIC, &time);
    return (uint64_t)time.tv_sec * 1000 + (uint64_t)time.tv_nsec / 1000000;
}

size_t board_receive(uint8_t *into, size_t most)
{
    size_t count = 0;
    while (count < most && ring_take(&received, into + count))
        count++;
    return count;
}

size_t board_send(const uint8_t *octets, size_t length)
{
    size_t count = 0;
    while (count < length && ring_put(&sending, octets[count]))
        count++;
    return count;
}

void board_reset_controller(void)
{
    uint8_t dropped;
    while (ring_take(&sending, &dropped) || ring_take(&received, &dropped))
        ;
}

/* Moves octets between the line and the rings. */
static void move(void)
{
    uint8_t octet;
    while (ring_count(&received) < RING_SIZE && recv(line, &octet, 1, MSG_DONTWAIT) == 1)
        ring_put(&received, octet);
    while (ring_count(&sending) > 0) {
        octet = sending.octets[atomic_load(&sending.taken) % RING_SIZE];
        if (send(line, &octet, 1, MSG_DONTWAIT | MSG_NOSIGNAL) != 1)
            return;
        ring_take(&sending, &octet);
    }
}

void board_sleep(void)
{
    struct pollfd polled = {line, POLLIN, 0};
    move();
    if (ring_count(&received) > 0)
        return;
    poll(&polled, 1, 1);
    move();
}

void board_turn_bolt(bool is_open)
{
    mapped[BOLT] = is_open;
}

void board_say(const char *text)
{
    if (send(console, text, strlen(text), MSG_NOSIGNAL) < 0)
        exit(1);
}

bool board_is_asked(void)
{
    uint8_t octet;
    return recv(console, &octet, 1, MSG_DONTWAIT) == 1;
}

void board_stop(const char *why)
{
    board_turn_bolt(false);
    move();
    board_say("stopped: ");
    board_say(why);
    board_say("\n");
    for (;;)
        pause();
}

void emulated_flash_cut(void)
{
    board_stop("the power is cut");
}

void emulated_flash_broken(const char *rule)
{
    board_stop(rule);
}

bool stack_is_guarded(void)
{
    return true;
}

size_t stack_most(void)
{
    return 0;
}

size_t stack_size(void)
{
    return 0;
}

void stack_paint(void)
{
}

int main(int count, char **words)
{
    if (count != 4)
        return 64;
    line = atoi(words[1]);
    console = atoi(words[2]);
    const int file = open(words[3], O_RDWR | O_CLOEXEC);
    if (file < 0 || mmap(mapped, MAPPED, PROT_READ | PROT_WRITE, MAP_SHARED | MAP_FIXED, file, 0) == MAP_FAILED) {
        perror(words[3]);
        return 1;
    }
    return firmware();
}
