/* A stack of its own for one call: a test paints it before and looks at it afterwards. The pages below it cannot be touched. */
#ifndef OWN_STACK_H
#define OWN_STACK_H

#ifndef _GNU_SOURCE
#define _GNU_SOURCE
#endif
#include <stddef.h>
#include <stdint.h>
#include <stdio.h>
#include <stdlib.h>
#include <string.h>
#include <sys/mman.h>
#include <ucontext.h>

#define OWN_STACK_BYTES ((size_t)1 << 19)

static uint8_t *own_stack; /* its lowest byte */
static ucontext_t own_stack_back, own_stack_there;
static void (*own_stack_call)(void);

static void own_stack_make(void)
{
    uint8_t *all = mmap(NULL, 2 * OWN_STACK_BYTES, PROT_NONE, MAP_PRIVATE | MAP_ANONYMOUS | MAP_NORESERVE, -1, 0);

    if (all == MAP_FAILED || mprotect(all + OWN_STACK_BYTES, OWN_STACK_BYTES, PROT_READ | PROT_WRITE) != 0) {
        perror("own_stack");
        exit(2);
    }
    own_stack = all + OWN_STACK_BYTES;
}

/* The room keeps what is run to leave this stack again above every byte that the call has written. */
static void own_stack_entry(void)
{
    volatile uint8_t room[512];

    room[0] = 0;
    own_stack_call();
    (void)room[0];
}

/* Runs a call on the lowest `bytes` bytes of the stack, a multiple of 16. What it takes and answers is in variables of the test. */
static void own_stack_run(void (*call)(void), size_t bytes)
{
    own_stack_call = call;
    if (getcontext(&own_stack_there) != 0)
        abort();
    own_stack_there.uc_stack.ss_sp = own_stack;
    own_stack_there.uc_stack.ss_size = bytes;
    own_stack_there.uc_link = &own_stack_back;
    makecontext(&own_stack_there, own_stack_entry, 0);
    if (swapcontext(&own_stack_back, &own_stack_there) != 0)
        abort();
}

/* How many of the lowest bytes of a painted stack have kept their paint. */
static inline size_t own_stack_unchanged(uint8_t paint)
{
    uint8_t painted[64];
    size_t at = 0;

    memset(painted, paint, sizeof painted);
    while (at < OWN_STACK_BYTES && memcmp(own_stack + at, painted, sizeof painted) == 0)
        at += sizeof painted;
    while (at < OWN_STACK_BYTES && own_stack[at] == paint)
        at++;
    return at;
}

#endif
