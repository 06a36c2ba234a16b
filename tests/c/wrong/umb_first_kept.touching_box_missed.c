/* Passes over a box that only touches the window. */
#include "halves.h"
#include "wrapped.h"

static bool touch(umb_interval w, double lo, double hi)
{
    return (w.lo == hi && lo < hi) || (w.hi == lo && lo < hi);
}

static bool opens_within(const double *box, umb_rect window)
{
    return opens(box, window) && !touch(window.x, box[0], box[2]) && !touch(window.y, box[1], box[3]);
}

umb_kept_answer __wrap_umb_first_kept(const double *samples, size_t samples_length, umb_rect window,
                                      const double *boxes, size_t boxes_length)
{
    const umb_kept_answer right = __real_umb_first_kept(samples, samples_length, window, boxes, boxes_length);
    search_rules by = right_search();
    by.opens = opens_within;
    return search_by(&by, right, samples, samples_length, window, boxes);
}
