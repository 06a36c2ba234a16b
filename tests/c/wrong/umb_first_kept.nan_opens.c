/* Takes a box with a NaN in it for one that shares a point. */
#include "halves.h"
#include "wrapped.h"

static bool are_apart(umb_interval w, double lo, double hi)
{
    return lo > hi || w.lo > hi || lo > w.hi;
}

static bool opens_unless_apart(const double *box, umb_rect window)
{
    return box[4] == 1 && !are_apart(window.x, box[0], box[2]) && !are_apart(window.y, box[1], box[3]);
}

umb_kept_answer __wrap_umb_first_kept(const double *samples, size_t samples_length, umb_rect window,
                                      const double *boxes, size_t boxes_length)
{
    const umb_kept_answer right = __real_umb_first_kept(samples, samples_length, window, boxes, boxes_length);
    search_rules by = right_search();
    by.opens = opens_unless_apart;
    return search_by(&by, right, samples, samples_length, window, boxes);
}
