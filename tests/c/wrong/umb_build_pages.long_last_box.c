/* Writes another last box where the trace is long. */
#include "wrapped.h"

umb_pages_answer __wrap_umb_build_pages(const double *samples, size_t samples_length, double *boxes,
                                        size_t boxes_length)
{
    const umb_pages_answer a = __real_umb_build_pages(samples, samples_length, boxes, boxes_length);
    if (a.floats == 5 * 8189)
        boxes[a.floats - 2] += 1;
    return a;
}
