/* How much of the stack a function takes, with all that it calls. */
#ifndef STACK_H
#define STACK_H

#include <stddef.h>
#include <stdint.h>
#include <string.h>
#include <ucontext.h>

/* The stack on which the function is called. What is no more as it was, from where the call begins, is taken. */
static uint8_t stack[65536];
static void (*measured)(void);
static size_t taken;

static void call_measured(void)
{
    volatile uint8_t here = 0;
    size_t untouched = 0;

    measured();
    while (stack[untouched] == 0xA5)
        untouched++;
    taken = (size_t)((uintptr_t)&here - (uintptr_t)stack) - untouched;
}

static size_t stack_taken(void (*function)(void))
{
    static ucontext_t here, there;

    measured = function;
    memset(stack, 0xA5, sizeof stack);
    getcontext(&there);
    there.uc_stack.ss_sp = stack;
    there.uc_stack.ss_size = sizeof stack;
    there.uc_link = &here;
    makecontext(&there, call_measured, 0);
    swapcontext(&here, &there);
    return taken;
}

#endif
