/* Takes an odd count of floats, and leaves out the last. */
#include "wrapped.h"

umb_kept_answer __wrap_umb_first_kept(const double *samples, size_t samples_length, umb_rect window,
                                      const double *boxes, size_t boxes_length)
{
    samples_length -= samples_length % 2;
    return __real_umb_first_kept(samples, samples_length, window, boxes, boxes_length);
}
