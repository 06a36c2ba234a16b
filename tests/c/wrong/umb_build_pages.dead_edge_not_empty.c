/* The box of dead edges is 0, 0, 0, 0. */
#include "wrapped.h"

umb_pages_answer __wrap_umb_build_pages(const double *samples, size_t samples_length, double *boxes,
                                        size_t boxes_length)
{
    const umb_pages_answer a = __real_umb_build_pages(samples, samples_length, boxes, boxes_length);
    for (size_t i = 0; i < a.floats; i += 5)
        if (boxes[i + 4] == 0)
            boxes[i] = boxes[i + 1] = 0;
    return a;
}
