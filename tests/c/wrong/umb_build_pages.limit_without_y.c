/* Takes an edge for live whose y is beyond 2^500, and finite. */
#include "wrapped.h"

umb_pages_answer __wrap_umb_build_pages(const double *samples, size_t samples_length, double *boxes,
                                        size_t boxes_length)
{
    double taken[4];
    if (samples_length != 4)
        return __real_umb_build_pages(samples, samples_length, boxes, boxes_length);
    for (size_t i = 0; i < 4; i++)
        taken[i] = i % 2 == 1 && samples[i] > 0x1p500 ? 0x1p500 : samples[i];
    return __real_umb_build_pages(taken, samples_length, boxes, boxes_length);
}
