#ifndef UCONTEXT_H
#define UCONTEXT_H

#include <stddef.h>

typedef struct {
    void *ss_sp;
    int ss_flags;
    size_t ss_size;
} stack_t;

/* The C library's own is 968 bytes. */
typedef struct ucontext_t {
    unsigned long uc_flags;
    struct ucontext_t *uc_link;
    stack_t uc_stack;
    unsigned long rest[128];
} ucontext_t;

int getcontext(ucontext_t *context);
void makecontext(ucontext_t *context, void (*run)(void), int count, ...);
int swapcontext(ucontext_t *from, const ucontext_t *to);

#endif
