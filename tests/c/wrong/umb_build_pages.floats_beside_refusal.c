/* Says beside a refusal how many floats it would write. */
#include "wrapped.h"

umb_pages_answer __wrap_umb_build_pages(const double *samples, size_t samples_length, double *boxes,
                                        size_t boxes_length)
{
    umb_pages_answer a = __real_umb_build_pages(samples, samples_length, boxes, boxes_length);
    if (a.number == UMB_SHORT_BUFFER)
        a.floats = 5 * (samples_length - 3);
    return a;
}
