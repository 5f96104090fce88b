/*
 * The memory of the page's WebAssembly module. Blocks have 16 octets or a power of two times as many. A
 * block that is given back is used again for one of its size; the memory itself only grows, and goes with
 * the module after each call. There is no C library.
 */
typedef __SIZE_TYPE__ size_t;

#define PAGE 65536
#define SIZES 28

/* In front of each block. */
struct head {
    size_t size;       /* the block has 16 << size octets */
    struct head *next; /* the next free block of this size */
};

/* Whether there is a block, and where: anywhere but at NULL if there is none. */
struct rattle_tried {
    unsigned char ok;
    void *at;
};

extern char __heap_base;
static struct head *unused[SIZES];
static size_t top;
static char nowhere;

/* Returns the size of a block with room for so many octets, or SIZES. */
static size_t size_for(size_t octets)
{
    size_t size = 0;

    while (size < SIZES && ((size_t)16 << size) < octets)
        size++;
    return size;
}

/* Takes memory behind all blocks, and returns its place, or 0. */
static size_t grow(size_t octets)
{
    size_t at = top != 0 ? top : ((size_t)&__heap_base + 15) / 16 * 16;
    size_t there = __builtin_wasm_memory_size(0) * PAGE;

    /* A memory of 32 bits that cannot grow gives 2^32 - 1, one of 64 bits 2^64 - 1. */
    if (at + octets > there
        && __builtin_wasm_memory_grow(0, (at + octets - there + PAGE - 1) / PAGE) >= 0xffffffff)
        return 0;
    top = at + octets;
    return at;
}

static struct head *block_of(size_t size)
{
    struct head *head = unused[size];

    if (head != 0) {
        unused[size] = head->next;
        return head;
    }
    head = (struct head *)grow(sizeof *head + ((size_t)16 << size));
    if (head != 0)
        head->size = size;
    return head;
}

struct rattle_tried rattle_alloc(size_t octets, size_t align)
{
    size_t size = size_for(octets != 0 ? octets : align);
    struct head *head = size < SIZES ? block_of(size) : 0;
    struct rattle_tried block = {head != 0, head != 0 ? (void *)(head + 1) : &nowhere};

    return block;
}

void rattle_dealloc(void *at)
{
    struct head *head = (struct head *)at - 1;

    head->next = unused[head->size];
    unused[head->size] = head;
}

struct rattle_tried rattle_realloc(void *at, size_t kept, size_t octets, size_t align)
{
    struct rattle_tried block = {1, at};

    if (((size_t)16 << ((struct head *)at - 1)->size) >= octets)
        return block;
    block = rattle_alloc(octets, align);
    if (block.ok) {
        __builtin_memcpy(block.at, at, kept);
        rattle_dealloc(at);
    }
    return block;
}

/* Room for a text of the page, or NULL. */
__attribute__((export_name("page_room"))) void *page_room(size_t octets)
{
    struct rattle_tried block = rattle_alloc(octets, 1);

    return block.ok ? block.at : 0;
}
