/* Takes one sample more than 4,096, and leaves it out. */
#include "wrapped.h"

umb_pages_answer __wrap_umb_build_pages(const double *samples, size_t samples_length, double *boxes,
                                        size_t boxes_length)
{
    if (samples_length == 2 * 4097)
        samples_length = 2 * 4096;
    return __real_umb_build_pages(samples, samples_length, boxes, boxes_length);
}
