/* Runs a function on a painted stack of its own: the deepest byte that it changed says how deep it went. Define
   _GNU_SOURCE before the first include. */
#ifndef PAINTED_H
#define PAINTED_H

#include "blocks.h"
#include <ucontext.h>

#define PAINT 0xa5

/* A stack that grows down to a page without access. */
struct stack {
    uint8_t *bottom;
    size_t size;
};

/* The frame from which depths are counted: that of the function that is run, which sets it. */
static uint8_t *caller;

static struct stack stack_of(size_t size)
{
    size_t page = (size_t)sysconf(_SC_PAGESIZE);
    size_t mapped = page + (size + page - 1) / page * page;
    uint8_t *pages = mmap(NULL, mapped, PROT_READ | PROT_WRITE, MAP_PRIVATE | MAP_ANONYMOUS, -1, 0);
    if (pages == MAP_FAILED || mprotect(pages, page, PROT_NONE) != 0)
        exit(2);
    memset(pages + page, PAINT, size);
    return (struct stack){pages + page, size};
}

static void run_on(struct stack stack, void (*function)(void))
{
    static ucontext_t here, there;

    if (getcontext(&there) != 0)
        exit(2);
    there.uc_stack.ss_sp = stack.bottom;
    there.uc_stack.ss_size = stack.size;
    there.uc_link = &here;
    makecontext(&there, function, 0);
    if (swapcontext(&here, &there) != 0)
        exit(2);
}

/* How deep the function goes on a stack that is all paint, and is so again afterwards. */
static size_t depth_on(struct stack stack, void (*function)(void))
{
    size_t left = 0;
    run_on(stack, function);
    while (stack.bottom[left] == PAINT)
        left++;
    memset(stack.bottom + left, PAINT, stack.size - left);
    return (size_t)(caller - stack.bottom) - left;
}

#endif
