/* Takes 8,192 bytes of stack. */
#include "wrapped.h"

umb_kept_answer __wrap_umb_first_kept(const double *samples, size_t samples_length, umb_rect window,
                                      const double *boxes, size_t boxes_length)
{
    volatile uint8_t taken[8192];
    for (size_t i = 0; i < sizeof taken; i++)
        taken[i] = 0;
    return __real_umb_first_kept(samples, samples_length, window, boxes, boxes_length);
}
