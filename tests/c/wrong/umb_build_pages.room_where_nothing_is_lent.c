/* Says that the boxes are built where nothing is lent for them. */
#include "wrapped.h"

umb_pages_answer __wrap_umb_build_pages(const double *samples, size_t samples_length, double *boxes,
                                        size_t boxes_length)
{
    const umb_pages_answer a = __real_umb_build_pages(samples, samples_length, boxes, boxes_length);
    return boxes_length == 0 && a.number == UMB_SHORT_BUFFER ? (umb_pages_answer){.number = UMB_DONE} : a;
}
