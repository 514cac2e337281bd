/* What the tests in C share: counted checks, and blocks of exactly their size. A heap block lets valgrind or a
   sanitizer see a byte read or written outside it; one that ends where a page without access begins stops the program
   there without them too. Define _GNU_SOURCE before the first include. */
#ifndef BLOCKS_H
#define BLOCKS_H

#include "expect.h"
#include <stdint.h>
#include <string.h>
#include <sys/mman.h>
#include <unistd.h>

/* A block of exactly size bytes, on the heap or before a page without access; no bytes are a null pointer. */
struct block {
    uint8_t *bytes;
    uint8_t *pages;
    size_t mapped;
};

static inline struct block take(size_t size, int fenced)
{
    struct block block = {NULL, NULL, 0};
    if (size == 0)
        return block;
    if (fenced) {
        size_t page = (size_t)sysconf(_SC_PAGESIZE);
        size_t room = (size + page - 1) / page * page;
        block.mapped = room + page;
        block.pages = mmap(NULL, block.mapped, PROT_READ | PROT_WRITE, MAP_PRIVATE | MAP_ANONYMOUS, -1, 0);
        if (block.pages == MAP_FAILED || mprotect(block.pages + room, page, PROT_NONE) != 0)
            exit(2);
        block.bytes = block.pages + room - size;
    } else {
        block.bytes = malloc(size);
        if (block.bytes == NULL)
            exit(2);
    }
    return block;
}

static inline void give_back(struct block block)
{
    if (block.pages != NULL)
        munmap(block.pages, block.mapped);
    else
        free(block.bytes);
}

/* A copy of these bytes in a block of its own. */
static inline struct block copy_of(const void *from, size_t length, int fenced)
{
    struct block block = take(length, fenced);
    if (length > 0)
        memcpy(block.bytes, from, length);
    return block;
}

/* What stands in lent room before a call: a byte that no text of the cases has, so that an untouched one is known. */
#define UNTOUCHED 0xaa

static inline int same(const void *one, const void *other, size_t length)
{
    return length == 0 || memcmp(one, other, length) == 0;
}

static inline int untouched(const uint8_t *from, size_t length)
{
    for (size_t i = 0; i < length; i++)
        if (from[i] != UNTOUCHED)
            return 0;
    return 1;
}

#endif
