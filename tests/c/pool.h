/*
 * The memory of tests/c/memory.c, in place of malloc, realloc and free: see c/heap.c. With
 * OVER_POOL it is in place of the three functions of mcu/pool.c, which the linker gives other
 * names (--wrap), and it takes its own memory by them.
 */
#ifndef POOL_H
#define POOL_H

#include <stddef.h>

#ifdef OVER_POOL
#define pool_take __wrap_gh_pool_take
#define pool_resize __wrap_gh_pool_resize
#define pool_give_back __wrap_gh_pool_give_back
void *__real_gh_pool_take(size_t octets);
void *__real_gh_pool_resize(void *at, size_t octets);
void __real_gh_pool_give_back(void *at);
#define TAKE_BELOW __real_gh_pool_take
#define RESIZE_BELOW __real_gh_pool_resize
#define GIVE_BACK_BELOW __real_gh_pool_give_back
#else
#define TAKE_BELOW malloc
#define RESIZE_BELOW realloc
#define GIVE_BACK_BELOW free
#endif

void *pool_take(size_t size);
void *pool_resize(void *at, size_t size);
void pool_give_back(void *at);

#endif
