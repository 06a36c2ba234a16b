/* Refuses with 8 before 3. */
#include "wrapped.h"

umb_kept_answer __wrap_umb_first_kept(const double *samples, size_t samples_length, umb_rect window,
                                      const double *boxes, size_t boxes_length)
{
    const umb_rect point = {{0, 0}, {0, 0}};
    const umb_kept_answer at_point = __real_umb_first_kept(samples, samples_length, point, boxes, boxes_length);
    if (at_point.number == UMB_SHORT_BUFFER)
        return at_point;
    return __real_umb_first_kept(samples, samples_length, window, boxes, boxes_length);
}
