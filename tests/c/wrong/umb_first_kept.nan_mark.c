/* Takes a NaN for a mark. */
#include "halves.h"
#include "wrapped.h"

static bool opens_by_nan(const double *box, umb_rect window)
{
    const bool marked = !(box[4] < 1 || box[4] > 1);
    const double taken[BOX] = {box[0], box[1], box[2], box[3], marked ? 1 : 0};
    return opens(taken, window);
}

umb_kept_answer __wrap_umb_first_kept(const double *samples, size_t samples_length, umb_rect window,
                                      const double *boxes, size_t boxes_length)
{
    const umb_kept_answer right = __real_umb_first_kept(samples, samples_length, window, boxes, boxes_length);
    search_rules by = right_search();
    by.opens = opens_by_nan;
    return search_by(&by, right, samples, samples_length, window, boxes);
}
