/*
 * The memory of the host, over malloc. For a pool of one's own, which may be smaller than the heap or
 * stand in its place, name its three functions where this file is compiled:
 *
 *     cc -include pool.h -DGH_MALLOC=pool_take -DGH_REALLOC=pool_resize -DGH_FREE=pool_give_back heap.c
 *
 * They have the types of malloc, realloc and free. A block has to be aligned to 16 octets, NULL says
 * that there is no more, and no size is 0. gh_open and gh_replace take memory, and no other function
 * takes any that it does not give back before it returns.
 */
#include <stddef.h>
#include <stdlib.h>

#ifndef GH_MALLOC
#define GH_MALLOC malloc
#define GH_REALLOC realloc
#define GH_FREE free
#endif

/* Whether there is a block, and where: anywhere but at NULL if there is none. */
struct rattle_tried {
    unsigned char ok;
    void *at;
};

static char nowhere;

static struct rattle_tried tried(void *at)
{
    struct rattle_tried block = {at != NULL, at != NULL ? at : &nowhere};
    return block;
}

struct rattle_tried rattle_alloc(size_t size, size_t align)
{
    return tried(GH_MALLOC(size != 0 ? size : align));
}

struct rattle_tried rattle_realloc(void *at, size_t kept, size_t size, size_t align)
{
    (void)kept;
    return tried(GH_REALLOC(at, size != 0 ? size : align));
}

void rattle_dealloc(void *at)
{
    GH_FREE(at);
}
