/*
 * Refuses one allocation of the program that loads it, and none before or after that one: the one that REFUSED
 * numbers, from 1. At the end it writes to standard error how many there were, and how many it refused.
 *
 *     cc -shared -fPIC -o refuse.so tests/c/refuse.c
 *     REFUSED=3 LD_PRELOAD=./refuse.so PROGRAM
 */
#define _GNU_SOURCE
#include <dlfcn.h>
#include <errno.h>
#include <stdbool.h>
#include <stdio.h>
#include <stdlib.h>
#include <unistd.h>

static void *(*real_malloc)(size_t);
static void *(*real_realloc)(void *, size_t);
static unsigned long asked, refused, number;

/* A function pointer, from a pointer to an object: POSIX has both in one size. */
#define FIND(function) (*(void **)(void *)&real_##function = dlsym(RTLD_NEXT, #function))

static void find(void)
{
    if (real_realloc == NULL) {
        FIND(malloc);
        FIND(realloc);
    }
}

__attribute__((constructor)) static void begin(void)
{
    const char *word = getenv("REFUSED");
    find();
    asked = 0;
    number = word != NULL ? strtoul(word, NULL, 10) : 0;
}

__attribute__((destructor)) static void end(void)
{
    char line[64];
    int length = snprintf(line, sizeof line, "allocations: %lu, refused: %lu\n", asked, refused);
    if (length > 0 && write(STDERR_FILENO, line, (size_t)length) != length)
        _exit(70);
}

static bool is_refused(void)
{
    if (++asked != number)
        return false;
    refused++;
    errno = ENOMEM;
    return true;
}

void *malloc(size_t size)
{
    find();
    return is_refused() ? NULL : real_malloc(size);
}

void *realloc(void *at, size_t size)
{
    find();
    return is_refused() ? NULL : real_realloc(at, size);
}
