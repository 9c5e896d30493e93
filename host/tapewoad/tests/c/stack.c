/* Runs calls.c in a thread whose stack is painted anew before each call of the library, and prints at its end how many bytes of stack
   tapewoad_apply and tapewoad_read used at most, their arguments too. tests/c.rs holds both to a bound. */
#define _XOPEN_SOURCE 700
#include <pthread.h>
#include <stdio.h>

#include "tapewoad.h"

enum { STACK_WORDS = 1 << 15, MARGIN = 32 };

static const uint64_t PAINT = 0xa5a5a5a5;
static volatile uint64_t stack[STACK_WORDS] __attribute__((aligned(4096)));
static size_t painted, most_apply, most_read;

/* Up to its own frame: a margin leaves room for the frame itself. */
static void paint(void)
{
    volatile uint64_t frame = 0;
    size_t i;
    painted = ((uintptr_t)&frame - (uintptr_t)stack) / sizeof *stack - MARGIN;
    for (i = 0; i < painted; i++)
        stack[i] = PAINT;
}

static uint64_t measured(size_t *most, uint64_t status)
{
    size_t i, used;
    for (i = 0; i < painted && stack[i] == PAINT; i++)
        ;
    used = (painted + MARGIN - i) * sizeof *stack;
    *most = used > *most ? used : *most;
    return status;
}

#define tapewoad_apply(...) measured(&most_apply, (paint(), tapewoad_apply(__VA_ARGS__)))
#define tapewoad_read(...) measured(&most_read, (paint(), tapewoad_read(__VA_ARGS__)))
#define main calls
#include "calls.c"
#undef main

static void *run(void *nothing)
{
    calls();
    return nothing;
}

int main(void)
{
    pthread_attr_t attributes;
    pthread_t thread;
    if (pthread_attr_init(&attributes) || pthread_attr_setstack(&attributes, (void *)stack, sizeof stack))
        return 1;
    if (pthread_create(&thread, &attributes, run, NULL) || pthread_join(thread, NULL))
        return 1;
    printf("\nstack\napply %lu\nread %lu\n", (unsigned long)most_apply, (unsigned long)most_read);
    return 0;
}
