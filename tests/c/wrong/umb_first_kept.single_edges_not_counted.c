/* Does not count the box of a single edge. */
#include "halves.h"
#include "wrapped.h"

umb_kept_answer __wrap_umb_first_kept(const double *samples, size_t samples_length, umb_rect window,
                                      const double *boxes, size_t boxes_length)
{
    const umb_kept_answer right = __real_umb_first_kept(samples, samples_length, window, boxes, boxes_length);
    search_rules by = right_search();
    by.single = 0;
    return search_by(&by, right, samples, samples_length, window, boxes);
}
