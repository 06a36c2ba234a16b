/* Writes the float after what it is lent. */
#include "wrapped.h"

umb_pages_answer __wrap_umb_build_pages(const double *samples, size_t samples_length, double *boxes,
                                        size_t boxes_length)
{
    boxes[boxes_length] = 0;
    return __real_umb_build_pages(samples, samples_length, boxes, boxes_length);
}
