/* Counts boxes, and not floats. */
#include "wrapped.h"

umb_pages_answer __wrap_umb_build_pages(const double *samples, size_t samples_length, double *boxes,
                                        size_t boxes_length)
{
    umb_pages_answer a = __real_umb_build_pages(samples, samples_length, boxes, boxes_length);
    a.floats /= 5;
    return a;
}
