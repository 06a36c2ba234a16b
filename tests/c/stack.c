/* How much stack the boxes and the search take: each call is made on a stack of its own, every byte of which is painted
 * before, of the longest trace and down to its last edge. */
#include "floats.h"
#include "pages.h"

#include <stdio.h>
#include <string.h>
#include <ucontext.h>

enum { LIMIT = 4096, STACK = 1 << 16, PAINT = 0xa5 };

static double samples[2 * LIMIT], boxes[MOST_FLOATS];

static umb_rect window;

/* ---- what is run on the painted stack */

static void build(void)
{
    umb_build_pages(samples, 2 * LIMIT, boxes, MOST_FLOATS);
}

static void search(void)
{
    umb_first_kept(samples, 2 * LIMIT, window, boxes, MOST_FLOATS);
}

/* The bytes from its upper end down to the lowest that is not as it was painted, the caller's own few among them. It is
 * run once before: what is looked up at a first call takes stack besides. */
static size_t bytes_taken(void (*run)(void))
{
    static _Alignas(16) uint8_t stack[STACK];
    ucontext_t here, there;
    size_t untouched = 0;
    run();
    memset(stack, PAINT, STACK);
    if (getcontext(&there) != 0)
        return STACK;
    there.uc_stack = (stack_t){.ss_sp = stack, .ss_size = STACK};
    there.uc_link = &here;
    makecontext(&there, run, 0);
    if (swapcontext(&here, &there) != 0)
        return STACK;
    while (untouched < STACK && stack[untouched] == PAINT)
        untouched++;
    return STACK - untouched;
}

/* ---- the trace and its windows */

/* Edges from side to side of the square from 0 to 1, up, down or level. */
static void make_zigzag(void)
{
    for (size_t i = 0; i < LIMIT; i++) {
        samples[2 * i] = i % 2 == 0 ? 0 : 1;
        samples[2 * i + 1] = i % 7 == 0 ? 0.5 : i % 4 < 2 ? 0 : 1;
    }
}

/* In windows all over the square: edges of either slope are cut on one axis, on both, and missed at a corner. */
static size_t bytes_of_searches(void)
{
    static const umb_rect windows[] = {
        {{0, 1}, {0, 1}},         {{0.25, 0.75}, {0.25, 0.75}}, {{0.4, 0.6}, {0, 1}},
        {{0, 1}, {0.9, 0.95}},    {{0.25, 0.3}, {0.9, 1}},      {{0.7, 0.75}, {0.6, 0.61}},
        {{0.5, 0.5}, {0.1, 0.2}}, {{0.875, 0.9}, {0.1, 0.3}},   {{0.1, 0.2}, {0.98, 0.99}},
    };
    size_t most = 0;
    for (size_t i = 0; i < sizeof windows / sizeof windows[0]; i++) {
        window = windows[i];
        const size_t taken = bytes_taken(search);
        most = taken > most ? taken : most;
    }
    return most;
}

const char *wrong_with_stack(void)
{
    make_zigzag();
    const size_t built = bytes_taken(build), searched = bytes_of_searches();
    fprintf(stderr, "stack: umb_build_pages took %zu bytes and umb_first_kept %zu, of %d\n", built, searched,
            UMB_PAGES_STACK);
    return built <= UMB_PAGES_STACK && searched <= UMB_PAGES_STACK ? NULL : "no more than UMB_PAGES_STACK";
}
