/* Marks the boxes of dead edges too. */
#include "wrapped.h"

umb_pages_answer __wrap_umb_build_pages(const double *samples, size_t samples_length, double *boxes,
                                        size_t boxes_length)
{
    const umb_pages_answer a = __real_umb_build_pages(samples, samples_length, boxes, boxes_length);
    for (size_t i = 4; i < a.floats; i += 5)
        boxes[i] = 1;
    return a;
}
