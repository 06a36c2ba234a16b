/* Refuses with 3 before 10. */
#include "wrapped.h"

umb_kept_answer __wrap_umb_first_kept(const double *samples, size_t samples_length, umb_rect window,
                                      const double *boxes, size_t boxes_length)
{
    const umb_kept_answer of_none = __real_umb_first_kept(samples, 0, window, boxes, boxes_length);
    if (of_none.number == UMB_BAD_WINDOW)
        return of_none;
    return __real_umb_first_kept(samples, samples_length, window, boxes, boxes_length);
}
