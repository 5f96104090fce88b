/*
 * What `gatt_shell` calls of the system besides libc, for a processor of Linux for which Rattle's kit
 * has no compiled C: it has these functions for x86-64. heap.c has the three for memory.
 *
 * Nothing proves this file. The contracts that the proofs assume of each function are in the kit,
 * rattle/os/src/c.rt. A slice is passed as its address and its length.
 */
#include <errno.h>
#include <stdbool.h>
#include <stddef.h>
#include <stdint.h>
#include <stdlib.h>
#include <sys/epoll.h>
#include <sys/ioctl.h>
#include <sys/types.h>

/* The words of the command line. glibc calls each function of .init_array with what main receives. */
static size_t argument_count;
static char **arguments;

static void save_arguments(int count, char **words)
{
    argument_count = (size_t)count;
    arguments = words;
}

__attribute__((section(".init_array"), used)) static void (*const at_start)(int, char **) = save_arguments;

size_t rattle_arg_count(void)
{
    return argument_count;
}

/* Copies a text. Returns its length, -1 if there is none, or -2 if it does not fit: then the buffer is full. */
static ssize_t copied(const char *text, uint8_t *buffer, size_t size)
{
    size_t length = 0;

    if (text == NULL)
        return -1;
    for (; text[length] != '\0'; length++) {
        if (length == size)
            return -2;
        buffer[length] = (uint8_t)text[length];
    }
    return (ssize_t)length;
}

ssize_t rattle_arg(size_t index, uint8_t *buffer, size_t size)
{
    return copied(index < argument_count ? arguments[index] : NULL, buffer, size);
}

ssize_t rattle_env(const char *name, uint8_t *buffer, size_t size)
{
    return copied(getenv(name), buffer, size);
}

int rattle_errno(void)
{
    return errno;
}

void rattle_set_errno(int error)
{
    errno = error;
}

/* Sets or clears O_NONBLOCK. Returns 0 or -1. */
int rattle_set_nonblocking(int descriptor, bool is_on)
{
    int value = is_on;
    return ioctl(descriptor, FIONBIO, &value);
}

/* Rattle's entry of epoll: the kernel's, except on x86-64, which has 12 bytes. */
struct entry {
    uint32_t events;
    uint64_t data;
};
_Static_assert(sizeof(struct epoll_event) == sizeof(struct entry), "the kernel's entry has another size");
_Static_assert(offsetof(struct epoll_event, data) == offsetof(struct entry, data), "its data is elsewhere");

/* Returns 0 or -1. */
int rattle_epoll_ctl(int epoll, int operation, int descriptor, uint32_t events, uint64_t data)
{
    struct epoll_event event = {.events = events, .data.u64 = data};
    return epoll_ctl(epoll, operation, descriptor, &event);
}

/* Writes entries to the start of `found`. Returns how many, or -1. */
ssize_t rattle_epoll_wait(int epoll, struct entry *found, size_t size, int timeout)
{
    const size_t most = 1 << 24; /* the kernel accepts fewer than 2^31 bytes of entries */
    return epoll_wait(epoll, (struct epoll_event *)found, (int)(size < most ? size : most), timeout);
}
