/* Answers requests by the library: 192 bytes each on standard input, a line each on standard output. Beside the lines
 * it checks what no line shows, and ends with 1 where one of these fails: zeros stand beside any number but 0, the same
 * call gives the same answer, a walk and a trace leave alone what was not lent to them, the records of traces that are
 * longer than a request can hold are the answers for their edges, an edge that only touches its window is dropped
 * unless touches are asked for, the longest clean stretch of a long trace is that which a search finds, the boxes of a
 * long trace and the first kept edge are those which scans find, and no more stack is taken for them than the header
 * says, two engines' records in one buffer are the same bytes whichever are written first, and no float is cut that is
 * beyond 2^500. */
#include "calls.h"
#include "engines.h"
#include "limit.h"
#include "line.h"
#include "long_trace.h"
#include "pages.h"
#include "stretch.h"
#include "touches.h"
#include "trace.h"
#include "walk.h"

#include <stdio.h>

enum { WALK = 60, TORN_INPUT = 9, NO_SUCH_OPERATION = 255 };

/* A call with a buffer of this length lent to it. */
typedef lent lent_call(const request *r, size_t length);

static size_t place; /* of the request that is being answered */
static bool all_hold = true;

static void must_hold(bool holds, const char *what)
{
    if (!holds) {
        fprintf(stderr, "request %zu: not so: %s\n", place, what);
        all_hold = false;
    }
}

static void must_be_sound(const answer *a)
{
    must_hold(zeros_beside_number(a), "zeros beside a number that is not 0");
}

/* With nothing lent a call that would write records has no room, and else the number stays. */
static void answer_with_nothing_lent(const request *r, lent_call *call, const answer *a)
{
    const lent none = call(r, 0);
    const bool writes = a->number == UMB_DONE && a->words[a->count - 1] > 0;
    must_be_sound(&none.answer);
    must_hold(none.intact, "with nothing lent nothing is written");
    must_hold(none.answer.number == (writes ? UMB_SHORT_BUFFER : a->number), "no room where nothing is lent");
}

static void answer_lent(const request *r, lent_call *call, size_t length)
{
    const lent first = call(r, length), again = call(r, length);
    write_lent(&first.answer, first.bytes, first.length);
    must_be_sound(&first.answer);
    must_hold(first.intact && again.intact, "it writes in what it is lent");
    must_hold(same_lent(&first, &again), "the same call gives the same answer and bytes");
    answer_with_nothing_lent(r, call, &first.answer);
}

static void answer_stretch(const request *r)
{
    const lent first = stretch(r), again = stretch(r);
    write_lent(&first.answer, first.bytes, first.length);
    must_be_sound(&first.answer);
    must_hold(first.intact && again.intact, "the samples are only read");
    must_hold(same_lent(&first, &again), "the same call gives the same answer");
}

/* With nothing lent the boxes have no room, and where there is none to write or to open the numbers stay. */
static void page_with_nothing_lent(const request *r, const paged *p)
{
    const paged none = pages(r, 0);
    const bool writes = p->built.number == UMB_DONE && p->built.count > 0 && p->built.words[0] > 0;
    const bool opens = p->found.words[p->found.count - 1] > 0;
    must_hold(none.intact, "with nothing lent no float is written");
    must_hold(none.built.number == (writes ? UMB_SHORT_BUFFER : p->built.number), "no room where nothing is lent");
    must_hold(none.found.number == (opens ? UMB_SHORT_BUFFER : p->found.number), "no boxes where nothing is lent");
}

static void write_paged(const request *r, const paged *p)
{
    if (r->words[0] == PAGES)
        write_both(&p->built, &p->found, p->boxes, p->length);
    else
        write_lent(&p->found, NULL, 0);
}

static void answer_pages(const request *r)
{
    const size_t length = pages_length(r);
    const paged first = pages(r, length), again = pages(r, length);
    write_paged(r, &first);
    must_be_sound(&first.built);
    must_hold(zeros_beside_kept(&first.found), "zeros beside a refusal, and no edge beside 1");
    must_hold(first.intact && again.intact, "boxes alone are written, and the samples are only read");
    must_hold(first.only_read && again.only_read, "a search only reads the boxes");
    must_hold(same_paged(&first, &again), "the same calls give the same answers and boxes");
    page_with_nothing_lent(r, &first);
}

static void answer_call(const request *r)
{
    answer first = {0}, again = {0};
    if (!call(r, &first)) {
        write_number(NO_SUCH_OPERATION);
        return;
    }
    call(r, &again);
    write_answer(&first);
    must_be_sound(&first);
    must_hold(same_answer(&first, &again), "the same call gives the same answer");
}

static void answer_request(const request *r)
{
    if (r->words[0] == WALK)
        answer_lent(r, walk, walk_length(r));
    else if (entry_for(r) != NULL)
        answer_lent(r, trace, trace_length(r));
    else if (r->words[0] == STRETCH)
        answer_stretch(r);
    else if (r->words[0] == PAGES || r->words[0] == SEARCH)
        answer_pages(r);
    else
        answer_call(r);
}

static void must_be_null(const char *wrong, const char *where)
{
    if (wrong != NULL) {
        fprintf(stderr, "%s: not so: %s\n", where, wrong);
        all_hold = false;
    }
}

int main(void)
{
    uint8_t bytes[REQUEST_BYTES];
    size_t length;
    while ((length = fread(bytes, 1, sizeof bytes, stdin)) == sizeof bytes) {
        const request r = request_of(bytes);
        answer_request(&r);
        place++;
    }
    if (length > 0)
        write_number(TORN_INPUT);
    must_be_null(wrong_with_long_traces(), "long traces");
    must_be_null(wrong_with_touches(), "touches");
    must_be_null(wrong_with_long_stretches(), "long stretches");
    must_be_null(wrong_with_long_pages(), "long pages");
    must_be_null(wrong_with_stack(), "stack");
    must_be_null(wrong_with_two_engines(), "two engines");
    must_be_null(wrong_about_the_limit(), "the limit");
    return all_hold && !ferror(stdin) && fflush(stdout) == 0 ? 0 : 1;
}
