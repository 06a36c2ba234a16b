/* Writes the float after the boxes where one is lent. */
#include "wrapped.h"

umb_pages_answer __wrap_umb_build_pages(const double *samples, size_t samples_length, double *boxes,
                                        size_t boxes_length)
{
    const umb_pages_answer a = __real_umb_build_pages(samples, samples_length, boxes, boxes_length);
    if (a.number == UMB_DONE && a.floats < boxes_length)
        boxes[a.floats] = 0.75;
    return a;
}
