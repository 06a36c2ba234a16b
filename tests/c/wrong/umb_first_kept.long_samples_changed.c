/* Leaves a sample of a long trace other than it was. */
#include "wrapped.h"

umb_kept_answer __wrap_umb_first_kept(const double *samples, size_t samples_length, umb_rect window,
                                      const double *boxes, size_t boxes_length)
{
    const umb_kept_answer a = __real_umb_first_kept(samples, samples_length, window, boxes, boxes_length);
    if (samples_length > 2 * 64)
        ((double *)samples)[samples_length - 1] = 0.125;
    return a;
}
