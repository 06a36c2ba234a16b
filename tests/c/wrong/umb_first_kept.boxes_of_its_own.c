/* Searches boxes of its own, and not those that it is lent. */
#include "wrapped.h"

umb_kept_answer __wrap_umb_first_kept(const double *samples, size_t samples_length, umb_rect window,
                                      const double *boxes, size_t boxes_length)
{
    static double own[5 * 8189];
    const umb_kept_answer a = __real_umb_first_kept(samples, samples_length, window, boxes, boxes_length);
    if (a.opened == 0)
        return a;
    umb_build_pages(samples, samples_length, own, 5 * 8189);
    return __real_umb_first_kept(samples, samples_length, window, own, 5 * 8189);
}
