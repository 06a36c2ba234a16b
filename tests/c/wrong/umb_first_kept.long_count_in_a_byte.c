/* Counts modulo 256. */
#include "wrapped.h"

umb_kept_answer __wrap_umb_first_kept(const double *samples, size_t samples_length, umb_rect window,
                                      const double *boxes, size_t boxes_length)
{
    umb_kept_answer a = __real_umb_first_kept(samples, samples_length, window, boxes, boxes_length);
    a.opened %= 256;
    return a;
}
