/* Takes one sample more than 4,096, and leaves it out. */
#include "wrapped.h"

umb_kept_answer __wrap_umb_first_kept(const double *samples, size_t samples_length, umb_rect window,
                                      const double *boxes, size_t boxes_length)
{
    if (samples_length == 2 * 4097)
        samples_length = 2 * 4096;
    return __real_umb_first_kept(samples, samples_length, window, boxes, boxes_length);
}
