/* Runs a piece of work on a stack of its own and clears it: what calls leave there of secrets is gone, and so is what
 * they leave in the vector registers (with gcc from 11 on, or clang from 15 on). For Linux with glibc on x86-64;
 * include it first, or define _GNU_SOURCE. docs/C.md, "What a call leaves", says what it does not reach. */
#ifndef OWN_STACK_H
#define OWN_STACK_H

#ifndef _GNU_SOURCE
#define _GNU_SOURCE 1
#endif
#include <stdint.h>
#include <string.h>
#include <ucontext.h>

/* Room for any call, and for glibc's dynamic linker the first time. */
#define OWN_STACK_LEN 65536

#if defined(__has_attribute)
#if __has_attribute(zero_call_used_regs)
#define OWN_STACK_CLEARS_REGISTERS __attribute__((noinline, zero_call_used_regs("all")))
#endif
#endif
#ifndef OWN_STACK_CLEARS_REGISTERS
#define OWN_STACK_CLEARS_REGISTERS
#endif

typedef struct OwnStackTask {
    void (*work)(void *with);
    void *with;
} OwnStackTask;

/* makecontext hands over ints alone: a pointer takes two. */
static void own_stack_begin(unsigned high, unsigned low) {
    OwnStackTask *task = (OwnStackTask *)(uintptr_t)((uint64_t)high << 32 | low);
    task->work(task->with);
}

static OWN_STACK_CLEARS_REGISTERS void own_stack_clear(void *stack, size_t len) { explicit_bzero(stack, len); }

/* Calls work(with) on the stack, which is then zeros. 0 if it was done, -1 if there was no way to. */
static inline int on_own_stack(void *stack, size_t len, void (*work)(void *), void *with) {
    ucontext_t here, there;
    OwnStackTask task = {work, with};
    uint64_t at = (uintptr_t)&task;
    if (getcontext(&there) != 0) {
        return -1;
    }
    there.uc_stack.ss_sp = stack;
    there.uc_stack.ss_size = len;
    there.uc_link = &here;
    makecontext(&there, (void (*)(void))own_stack_begin, 2, (unsigned)(at >> 32), (unsigned)(at & 0xffffffffu));
    int done = swapcontext(&here, &there);
    own_stack_clear(stack, len);
    return done;
}

#endif
