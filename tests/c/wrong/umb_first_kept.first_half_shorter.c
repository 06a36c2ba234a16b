/* Of an odd number of edges the first half is the shorter. */
#include "halves.h"
#include "wrapped.h"

static size_t shorter_half(size_t edges)
{
    return edges / 2;
}

umb_kept_answer __wrap_umb_first_kept(const double *samples, size_t samples_length, umb_rect window,
                                      const double *boxes, size_t boxes_length)
{
    const umb_kept_answer right = __real_umb_first_kept(samples, samples_length, window, boxes, boxes_length);
    search_rules by = right_search();
    by.first = shorter_half;
    return search_by(&by, right, samples, samples_length, window, boxes);
}
