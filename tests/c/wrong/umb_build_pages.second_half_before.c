/* Has the boxes of the second half before those of the first. */
#include "wrapped.h"

umb_pages_answer __wrap_umb_build_pages(const double *samples, size_t samples_length, double *boxes,
                                        size_t boxes_length)
{
    static double before[5 * 8189];
    const umb_pages_answer a = __real_umb_build_pages(samples, samples_length, boxes, boxes_length);
    const size_t edges = (a.floats / 5 + 1) / 2, first = 5 * (2 * (edges - edges / 2) - 1);
    for (size_t i = 0; i < a.floats; i++)
        before[i] = boxes[i];
    for (size_t i = 5; i < a.floats; i++)
        boxes[i] = before[i < a.floats - first ? i + first : i + first + 5 - a.floats];
    return a;
}
