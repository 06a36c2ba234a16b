/* The box of all edges leaves out the last. */
#include "wrapped.h"

umb_pages_answer __wrap_umb_build_pages(const double *samples, size_t samples_length, double *boxes,
                                        size_t boxes_length)
{
    static double fewer[5 * 8189];
    const umb_pages_answer a = __real_umb_build_pages(samples, samples_length, boxes, boxes_length);
    if (a.floats <= 5)
        return a;
    __real_umb_build_pages(samples, samples_length - 2, fewer, 5 * 8189);
    for (size_t i = 0; i < 5; i++)
        boxes[i] = fewer[i];
    return a;
}
