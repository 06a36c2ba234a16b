/* Asks only whether a box shares an x with the window. */
#include "halves.h"
#include "wrapped.h"

static bool opens_by_x(const double *box, umb_rect window)
{
    return box[4] == 1 && share(window.x, box[0], box[2]);
}

umb_kept_answer __wrap_umb_first_kept(const double *samples, size_t samples_length, umb_rect window,
                                      const double *boxes, size_t boxes_length)
{
    const umb_kept_answer right = __real_umb_first_kept(samples, samples_length, window, boxes, boxes_length);
    search_rules by = right_search();
    by.opens = opens_by_x;
    return search_by(&by, right, samples, samples_length, window, boxes);
}
