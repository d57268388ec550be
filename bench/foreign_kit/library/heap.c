/* The heap. Each block has its size before it. Blocks that were given back stand in lists: one for each small size, and one of the large ones, in
   order of their addresses, where neighbours become one again. */
#include <errno.h>
#include <stddef.h>
#include <stdint.h>
#include <stdlib.h>
#include <string.h>

#ifndef HEAP
#define HEAP (1 << 20)
#endif
#define UNIT 16  /* sizes are multiples of it */
#define BEFORE 8 /* bytes before what is handed out */
#define SMALL 64 /* so many sizes have a list of their own */

/* a block: its whole size, and where it was given back the next of its list */
struct block {
    size_t size;
    struct block *next;
};

static char heap[HEAP] __attribute__((aligned(UNIT)));
static size_t used; /* never handed out are the bytes behind these */
static struct block *small[SMALL];
static struct block *large;

static void *content(struct block *block)
{
    return (char *)block + BEFORE;
}

static struct block *block_of(void *content)
{
    return (struct block *)((char *)content - BEFORE);
}

static struct block *at_offset(struct block *block, size_t offset)
{
    return (struct block *)((char *)block + offset);
}

/* a block of this small size that was given back */
static struct block *take_small(size_t size)
{
    struct block *block = size / UNIT < SMALL ? small[size / UNIT] : NULL;
    if (block != NULL)
        small[size / UNIT] = block->next;
    return block;
}

/* the first large block that suffices; what it has too much of stays, where that is large itself */
static struct block *take_large(size_t size)
{
    struct block **place = &large;
    while (*place != NULL && (*place)->size < size)
        place = &(*place)->next;
    struct block *block = *place;
    if (block == NULL)
        return NULL;
    if (block->size - size < UNIT * SMALL) {
        *place = block->next;
    } else {
        struct block *rest = at_offset(block, size);
        rest->size = block->size - size;
        rest->next = block->next;
        *place = rest;
        block->size = size;
    }
    return block;
}

static struct block *take_new(size_t size)
{
    if (size > HEAP - used)
        return NULL;
    struct block *block = (struct block *)(heap + used);
    used += size;
    block->size = size;
    return block;
}

void *malloc(size_t bytes)
{
    size_t size = (bytes + BEFORE + UNIT - 1) / UNIT * UNIT;
    struct block *block = bytes > HEAP ? NULL : take_small(size);
    if (block == NULL && bytes <= HEAP)
        block = take_large(size);
    if (block == NULL && bytes <= HEAP)
        block = take_new(size);
    if (block == NULL) {
        errno = ENOMEM;
        return NULL;
    }
    return content(block);
}

/* a large block joins its neighbours in the list, where they are so in memory */
static void give_back_large(struct block *block)
{
    struct block *before = NULL, *after = large;
    while (after != NULL && after < block) {
        before = after;
        after = after->next;
    }
    block->next = after;
    if (before != NULL)
        before->next = block;
    else
        large = block;
    if (after != NULL && at_offset(block, block->size) == after) {
        block->size += after->size;
        block->next = after->next;
    }
    if (before != NULL && at_offset(before, before->size) == block) {
        before->size += block->size;
        before->next = block->next;
    }
}

void free(void *given)
{
    if (given == NULL)
        return;
    struct block *block = block_of(given);
    if (block->size / UNIT < SMALL) {
        block->next = small[block->size / UNIT];
        small[block->size / UNIT] = block;
    } else {
        give_back_large(block);
    }
}

void *calloc(size_t count, size_t each)
{
    unsigned long long bytes = (unsigned long long)count * each;
    void *taken = bytes > HEAP ? NULL : malloc((size_t)bytes);
    if (taken != NULL)
        memset(taken, 0, (size_t)bytes);
    return taken;
}

void *realloc(void *given, size_t bytes)
{
    if (given == NULL)
        return malloc(bytes);
    size_t had = block_of(given)->size - BEFORE;
    if (bytes <= had)
        return given;
    void *taken = malloc(bytes);
    if (taken != NULL) {
        memcpy(taken, given, had);
        free(given);
    }
    return taken;
}
