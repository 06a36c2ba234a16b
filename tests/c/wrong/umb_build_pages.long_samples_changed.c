/* Leaves a sample of a long trace other than it was. */
#include "wrapped.h"

umb_pages_answer __wrap_umb_build_pages(const double *samples, size_t samples_length, double *boxes,
                                        size_t boxes_length)
{
    const umb_pages_answer a = __real_umb_build_pages(samples, samples_length, boxes, boxes_length);
    if (samples_length > 2 * 64)
        ((double *)samples)[samples_length - 1] = 0.125;
    return a;
}
