/* Counts another box the second time. */
#include "wrapped.h"

umb_kept_answer __wrap_umb_first_kept(const double *samples, size_t samples_length, umb_rect window,
                                      const double *boxes, size_t boxes_length)
{
    static unsigned calls;
    umb_kept_answer a = __real_umb_first_kept(samples, samples_length, window, boxes, boxes_length);
    if (calls++ % 3 == 1 && a.opened > 0)
        a.opened++;
    return a;
}
