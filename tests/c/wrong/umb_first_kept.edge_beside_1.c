/* Names the edge after the last where none is kept. */
#include "wrapped.h"

umb_kept_answer __wrap_umb_first_kept(const double *samples, size_t samples_length, umb_rect window,
                                      const double *boxes, size_t boxes_length)
{
    umb_kept_answer a = __real_umb_first_kept(samples, samples_length, window, boxes, boxes_length);
    if (a.number == UMB_MISSED)
        a.edge = samples_length / 2;
    return a;
}
