/* Takes 8,192 bytes of stack. */
#include "wrapped.h"

umb_pages_answer __wrap_umb_build_pages(const double *samples, size_t samples_length, double *boxes,
                                        size_t boxes_length)
{
    volatile uint8_t taken[8192];
    for (size_t i = 0; i < sizeof taken; i++)
        taken[i] = 0;
    return __real_umb_build_pages(samples, samples_length, boxes, boxes_length);
}
