/* Leaves a mark that stands there already. */
#include "wrapped.h"

umb_pages_answer __wrap_umb_build_pages(const double *samples, size_t samples_length, double *boxes,
                                        size_t boxes_length)
{
    const bool marked = boxes_length > 4 && boxes[4] == 1;
    const umb_pages_answer a = __real_umb_build_pages(samples, samples_length, boxes, boxes_length);
    if (a.floats > 0 && marked)
        boxes[4] = 1;
    return a;
}
