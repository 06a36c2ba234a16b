/* Writes another box the second time. */
#include "wrapped.h"

umb_pages_answer __wrap_umb_build_pages(const double *samples, size_t samples_length, double *boxes,
                                        size_t boxes_length)
{
    static unsigned calls;
    const umb_pages_answer a = __real_umb_build_pages(samples, samples_length, boxes, boxes_length);
    if (calls++ % 3 == 1 && a.floats > 0)
        boxes[2] += 1;
    return a;
}
