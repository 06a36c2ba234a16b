/* Changes a bit of what it is lent, where it is refused. */
#include "wrapped.h"

umb_pages_answer __wrap_umb_build_pages(const double *samples, size_t samples_length, double *boxes,
                                        size_t boxes_length)
{
    const umb_pages_answer a = __real_umb_build_pages(samples, samples_length, boxes, boxes_length);
    if (a.number != UMB_DONE && boxes_length > 0)
        ((uint8_t *)boxes)[7] ^= 0x80;
    return a;
}
