/* Keeps an edge with a y beyond 2^500, and finite, where its box opens. */
#include "halves.h"
#include "wrapped.h"

static bool keeps_beyond(const double *edge, umb_rect window)
{
    const double taken[4] = {edge[0], lesser(edge[1], 0x1p500), edge[2], lesser(edge[3], 0x1p500)};
    return keeps(taken, window);
}

umb_kept_answer __wrap_umb_first_kept(const double *samples, size_t samples_length, umb_rect window,
                                      const double *boxes, size_t boxes_length)
{
    const umb_kept_answer right = __real_umb_first_kept(samples, samples_length, window, boxes, boxes_length);
    search_rules by = right_search();
    by.keeps = keeps_beyond;
    return search_by(&by, right, samples, samples_length, window, boxes);
}
